/* Charges each customer with the invoices that are not paid yet. */
DEFINE VARIABLE total AS DECIMAL NO-UNDO.

FOR EACH customer NO-LOCK:
    FOR EACH invoice WHERE invoice.buyer = customer.num EXCLUSIVE-LOCK:
        IF NOT invoice.paid THEN DO:
            invoice.paid = YES.
            total = total + invoice.amount.
            RUN charge (customer.num, invoice.amount).
        END.
    END.
END.
PUT UNFORMATTED "charged " total SKIP.

PROCEDURE charge:
    DEFINE INPUT PARAMETER who AS INTEGER.
    DEFINE INPUT PARAMETER price AS DECIMAL.
    DO FOR customer ON ERROR UNDO, RETURN ERROR:
        FIND FIRST customer WHERE customer.num = who EXCLUSIVE-LOCK.
        customer.balance = customer.balance + price.
    END.
END.
