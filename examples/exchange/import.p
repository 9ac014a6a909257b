/* Reads a file of orders. Where a line of it breaks a rule of the table, nothing is stored. */
DEFINE VARIABLE header AS CHARACTER NO-UNDO.
DEFINE VARIABLE n AS INTEGER NO-UNDO.
DEFINE VARIABLE total AS DECIMAL NO-UNDO.
IMPORT header.
IF header <> {fields.i &names=yes} THEN RETURN ERROR "other columns".
whole: DO TRANSACTION:
  REPEAT ON ERROR UNDO whole, RETURN ERROR "order " + STRING(n + 1):
    CREATE Order.
    IMPORT {fields.i &of=Order}.
    n = n + 1.
    total = total + Order.Total.
  END.
END.
MESSAGE n "orders," total.
