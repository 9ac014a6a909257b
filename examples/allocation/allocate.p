/* Reserves stock for the open orders, the earliest promise first. */
DEFINE VARIABLE iFree  AS INTEGER NO-UNDO.
DEFINE VARIABLE iShort AS INTEGER NO-UNDO.

FOR EACH Order WHERE Order.OrdStat = "open" USE-INDEX Promised EXCLUSIVE-LOCK TRANSACTION:
  iShort = 0.
  FOR EACH OrderLine WHERE OrderLine.OrderNum = Order.OrderNum EXCLUSIVE-LOCK:
    FIND Stock WHERE Stock.ItemNum = OrderLine.ItemNum EXCLUSIVE-LOCK.
    ASSIGN
      iFree               = Stock.OnHand - Stock.Reserved
      OrderLine.Allocated = IF iFree < OrderLine.Ordered THEN iFree ELSE OrderLine.Ordered
      Stock.Reserved      = Stock.Reserved + OrderLine.Allocated
      iShort              = iShort + OrderLine.Ordered - OrderLine.Allocated.
  END.
  IF Order.ShipComplete AND iShort > 0 THEN DO:
    PUT UNFORMATTED "order " Order.OrderNum ": " iShort " short, nothing reserved" SKIP.
    UNDO, NEXT.
  END.
  Order.OrdStat = IF iShort = 0 THEN "ready" ELSE "part".
END.
