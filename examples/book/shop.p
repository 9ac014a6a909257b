/* Opens the shop with the stock of its input, waits until two offices are done, and lists what is left. */
DEFINE VARIABLE item AS CHARACTER NO-UNDO.
DEFINE VARIABLE pieces AS INTEGER NO-UNDO.
DEFINE VARIABLE offices AS INTEGER NO-UNDO.
DEFINE VARIABLE orders AS INTEGER NO-UNDO.

DO TRANSACTION:
  REPEAT:
    IMPORT item pieces.
    CREATE Stock.
    ASSIGN Stock.Item = item Stock.Pieces = pieces.
  END.
END.

REPEAT WHILE offices < 2:
  offices = 0.
  FOR EACH Office WHERE Office.Done NO-LOCK:
    offices = offices + 1.
  END.
END.

FOR EACH Stock NO-LOCK:
  orders = 0.
  FOR EACH Order WHERE Order.Item = Stock.Item NO-LOCK:
    orders = orders + 1.
  END.
  PUT Stock.Item Stock.Pieces SPACE(2) orders SKIP.
END.
