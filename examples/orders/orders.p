/* Lists the orders and adds them up. A line that is no order is passed over, and an order below zero is undone. */
DEFINE VARIABLE buyer AS CHARACTER NO-UNDO.
DEFINE VARIABLE amount AS DECIMAL NO-UNDO.
DEFINE VARIABLE total AS DECIMAL.
DEFINE VARIABLE refused AS INTEGER NO-UNDO.

REPEAT TRANSACTION ON ERROR UNDO, NEXT:
    IMPORT buyer amount.
    total = total + amount.
    IF amount < 0 THEN DO:
        refused = refused + 1.
        UNDO, NEXT.
    END.
    PUT buyer FORMAT "x(8)" amount SKIP.
END.
PUT UNFORMATTED "total " total ", refused " refused SKIP.
