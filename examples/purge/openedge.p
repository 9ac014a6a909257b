/* Deletes the shipped orders of more than two years ago, and writes each to the archive first. */
DEFINE STREAM sArc.
DEFINE BUFFER bOrder FOR Order.
DEFINE VARIABLE iGone AS INTEGER NO-UNDO.
DEFINE VARIABLE iKept AS INTEGER NO-UNDO.

OUTPUT STREAM sArc TO archive.d APPEND.
blkOrder:
FOR EACH Order WHERE Order.OrderDate < ADD-INTERVAL(TODAY, -2, "years")
    AND Order.OrdStat = "shipped" NO-LOCK:
  IF CAN-FIND(FIRST OrderLine OF Order WHERE OrderLine.Backord > 0) THEN DO:
    iKept = iKept + 1.
    NEXT blkOrder.
  END.
  DO FOR bOrder TRANSACTION:
    FIND bOrder WHERE ROWID(bOrder) = ROWID(Order) EXCLUSIVE-LOCK NO-WAIT NO-ERROR.
    IF NOT AVAILABLE bOrder THEN DO:
      iKept = iKept + 1.
      NEXT blkOrder.
    END.
    EXPORT STREAM sArc bOrder.
    FOR EACH OrderLine OF bOrder EXCLUSIVE-LOCK:
      EXPORT STREAM sArc OrderLine.
      DELETE OrderLine.
    END.
    DELETE bOrder.
    iGone = iGone + 1.
  END.
END.
MESSAGE iGone "orders deleted," iKept "kept".
QUIT.
