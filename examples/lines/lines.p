/* Books the orders of its input, each with its lines and its total, and prints them.
   An order is one transaction. A line that cannot be booked is left out; an order without lines is undone. */
DEFINE VARIABLE customer AS CHARACTER NO-UNDO.
DEFINE VARIABLE code AS INTEGER NO-UNDO.
DEFINE VARIABLE pieces AS INTEGER NO-UNDO.
DEFINE VARIABLE number AS INTEGER.

DO TRANSACTION:
  INPUT FROM "items.txt".
  REPEAT:
    CREATE Item.
    IMPORT Item.
  END.
  INPUT CLOSE.
END.

orders:
REPEAT TRANSACTION:
  IMPORT customer.
  CREATE Order.
  ASSIGN
    Order.OrderNum = NEXT-VALUE(NextOrder)
    Order.Customer = customer.
  number = 0.
  REPEAT ON ERROR UNDO, NEXT:
    IMPORT code pieces.
    IF code = 0 THEN LEAVE.
    number = number + 1.
    CREATE OrderLine.
    ASSIGN
      OrderLine.OrderNum = Order.OrderNum
      OrderLine.LineNum = number
      OrderLine.ItemNum = code
      OrderLine.Pieces = pieces.
    FIND Item WHERE Item.ItemNum = code NO-LOCK.
    OrderLine.Amount = pieces * Item.Price.
    Order.Total = Order.Total + OrderLine.Amount.
  END.
  IF number = 0 THEN DO:
    PUT UNFORMATTED "nothing for " customer SKIP.
    UNDO orders, NEXT orders.
  END.
END.

FOR EACH Order NO-LOCK:
  PUT UNFORMATTED "order " Order.OrderNum " of " Order.Customer SKIP.
  FOR EACH OrderLine WHERE OrderLine.OrderNum = Order.OrderNum NO-LOCK:
    FIND Item WHERE Item.ItemNum = OrderLine.ItemNum NO-LOCK.
    PUT OrderLine.LineNum SPACE Item.Name OrderLine.Pieces OrderLine.Amount SKIP.
  END.
  PUT SPACE(13) "total" FORMAT "x(5)" Order.Total SKIP.
END.
