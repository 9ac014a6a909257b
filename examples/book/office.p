/* Books the orders of its input for the office that its first line names. An order that leaves less than nothing is undone. */
DEFINE VARIABLE office AS CHARACTER NO-UNDO.
DEFINE VARIABLE item AS CHARACTER.
DEFINE VARIABLE pieces AS INTEGER.
DEFINE VARIABLE booked AS INTEGER NO-UNDO.
DEFINE VARIABLE refused AS INTEGER NO-UNDO.

IMPORT office.
RUN wait.

REPEAT TRANSACTION:
  IMPORT item pieces.
  FIND Stock WHERE Stock.Item = item EXCLUSIVE-LOCK.
  Stock.Pieces = Stock.Pieces - pieces.
  CREATE Order.
  ASSIGN
    Order.OrderNum = NEXT-VALUE(NextOrder)
    Order.Office = office
    Order.Item = item
    Order.Pieces = pieces.
  IF Stock.Pieces < 0 THEN DO:
    refused = refused + 1.
    UNDO, NEXT.
  END.
  booked = booked + 1.
END.

DO TRANSACTION:
  CREATE Office.
  ASSIGN Office.Name = office Office.Done = yes.
END.
PUT UNFORMATTED "booked " booked ", refused " refused SKIP.

/* Returns when the stock is there: until its transaction ends, its first record is locked. */
PROCEDURE wait:
  REPEAT:
    FIND FIRST Stock SHARE-LOCK NO-ERROR.
    IF AVAILABLE Stock THEN RETURN.
  END.
END.
