/* What customers owe, by the days since it was due. */
DEFINE VARIABLE dBucket AS DECIMAL EXTENT 4 NO-UNDO.
DEFINE VARIABLE dTotal  AS DECIMAL EXTENT 4 NO-UNDO.
DEFINE VARIABLE dOpen   AS DECIMAL NO-UNDO.
DEFINE VARIABLE iDays   AS INTEGER NO-UNDO.
DEFINE VARIABLE i       AS INTEGER NO-UNDO.

FOR EACH Customer NO-LOCK,
    EACH Invoice OF Customer WHERE Invoice.Amount > Invoice.Paid NO-LOCK
    BREAK BY Customer.CustName:
  IF FIRST-OF(Customer.CustName) THEN dBucket = 0.
  ASSIGN
    dOpen = Invoice.Amount - Invoice.Paid
    iDays = TODAY - Invoice.DueDate.
  CASE TRUE:
    WHEN iDays <= 0  THEN i = 1.
    WHEN iDays <= 30 THEN i = 2.
    WHEN iDays <= 60 THEN i = 3.
    OTHERWISE             i = 4.
  END CASE.
  ASSIGN
    dBucket[i] = dBucket[i] + dOpen
    dTotal[i]  = dTotal[i] + dOpen.
  IF LAST-OF(Customer.CustName) THEN
    DISPLAY Customer.CustName dBucket FORMAT "->>,>>9.99" WITH WIDTH 80.
END.
DISPLAY "Total" dTotal FORMAT "->>,>>9.99" WITH WIDTH 80.
