/* Deletes the shipped orders of before a day, and writes each to the archive first. */
DEFINE STREAM sArc.
DEFINE BUFFER bOrder FOR Order.
DEFINE BUFFER bOpen  FOR OrderLine.
DEFINE VARIABLE dtBefore AS DATE    NO-UNDO.
DEFINE VARIABLE iGone    AS INTEGER NO-UNDO.
DEFINE VARIABLE iKept    AS INTEGER NO-UNDO.

IMPORT dtBefore.
OUTPUT STREAM sArc TO "archive.d" APPEND.
blkOrder:
FOR EACH Order WHERE Order.OrderDate < dtBefore
    AND Order.OrdStat = "shipped" USE-INDEX OrderDate NO-LOCK:
  FIND FIRST bOpen WHERE bOpen.OrderNum = Order.OrderNum AND bOpen.Backord > 0 NO-LOCK NO-ERROR.
  IF AVAILABLE bOpen THEN DO:
    iKept = iKept + 1.
    NEXT blkOrder.
  END.
  DO FOR bOrder TRANSACTION:
    FIND bOrder WHERE bOrder.OrderNum = Order.OrderNum EXCLUSIVE-LOCK NO-WAIT NO-ERROR.
    IF NOT AVAILABLE bOrder THEN DO:
      iKept = iKept + 1.
      NEXT blkOrder.
    END.
    EXPORT STREAM sArc bOrder.
    FOR EACH OrderLine WHERE OrderLine.OrderNum = bOrder.OrderNum EXCLUSIVE-LOCK:
      EXPORT STREAM sArc OrderLine.
      DELETE OrderLine.
    END.
    DELETE bOrder.
    iGone = iGone + 1.
  END.
END.
MESSAGE iGone "orders deleted," iKept "kept".
