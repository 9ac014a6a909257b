/* Prints the amounts of the invoices, and then the last one again. */
FOR EACH invoice NO-LOCK:
    PUT UNFORMATTED invoice.amount SKIP.
END.
FIND LAST invoice EXCLUSIVE-LOCK.
PUT UNFORMATTED "last " invoice.amount SKIP.
