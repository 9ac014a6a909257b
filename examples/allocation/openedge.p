/* Reserves stock for the open orders, the earliest promise first. */
DEFINE VARIABLE iFree  AS INTEGER NO-UNDO.
DEFINE VARIABLE iShort AS INTEGER NO-UNDO.

FOR EACH Order WHERE Order.OrdStat = "open" EXCLUSIVE-LOCK
    BY Order.Promised BY Order.OrderNum TRANSACTION:
  iShort = 0.
  FOR EACH OrderLine OF Order EXCLUSIVE-LOCK,
      FIRST Stock OF OrderLine EXCLUSIVE-LOCK:
    ASSIGN
      iFree               = Stock.OnHand - Stock.Reserved
      OrderLine.Allocated = MINIMUM(iFree, OrderLine.Ordered)
      Stock.Reserved      = Stock.Reserved + OrderLine.Allocated
      iShort              = iShort + OrderLine.Ordered - OrderLine.Allocated.
  END.
  IF Order.ShipComplete AND iShort > 0 THEN DO:
    DISPLAY Order.OrderNum iShort LABEL "Short" WITH FRAME fShort DOWN.
    UNDO, NEXT.
  END.
  Order.OrdStat = IF iShort = 0 THEN "ready" ELSE "part".
END.
