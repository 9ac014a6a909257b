/* What customers owe, by the days since it was due. */
DEFINE VARIABLE dCurrent  AS DECIMAL NO-UNDO FORMAT "->>,>>9.99".
DEFINE VARIABLE dThirty   AS DECIMAL NO-UNDO FORMAT "->>,>>9.99".
DEFINE VARIABLE dSixty    AS DECIMAL NO-UNDO FORMAT "->>,>>9.99".
DEFINE VARIABLE dOlder    AS DECIMAL NO-UNDO FORMAT "->>,>>9.99".
DEFINE VARIABLE dCurrents AS DECIMAL NO-UNDO FORMAT "->>,>>9.99".
DEFINE VARIABLE dThirties AS DECIMAL NO-UNDO FORMAT "->>,>>9.99".
DEFINE VARIABLE dSixties  AS DECIMAL NO-UNDO FORMAT "->>,>>9.99".
DEFINE VARIABLE dOlders   AS DECIMAL NO-UNDO FORMAT "->>,>>9.99".
DEFINE VARIABLE dOpen     AS DECIMAL NO-UNDO.
DEFINE VARIABLE iDays     AS INTEGER NO-UNDO.
DEFINE VARIABLE lOwes     AS LOGICAL NO-UNDO.
DEFINE VARIABLE dtAsOf    AS DATE    NO-UNDO.

IMPORT dtAsOf.

FOR EACH Customer USE-INDEX CustName NO-LOCK:
  ASSIGN dCurrent = 0 dThirty = 0 dSixty = 0 dOlder = 0 lOwes = NO.
  FOR EACH Invoice WHERE Invoice.CustNum = Customer.CustNum
      AND Invoice.Amount > Invoice.Paid USE-INDEX CustDue NO-LOCK:
    ASSIGN
      lOwes = YES
      dOpen = Invoice.Amount - Invoice.Paid
      iDays = dtAsOf - Invoice.DueDate.
    IF iDays <= 0 THEN dCurrent = dCurrent + dOpen.
    ELSE IF iDays <= 30 THEN dThirty = dThirty + dOpen.
    ELSE IF iDays <= 60 THEN dSixty = dSixty + dOpen.
    ELSE dOlder = dOlder + dOpen.
  END.
  IF lOwes THEN PUT Customer.CustName dCurrent dThirty dSixty dOlder SKIP.
  ASSIGN
    dCurrents = dCurrents + dCurrent
    dThirties = dThirties + dThirty
    dSixties  = dSixties + dSixty
    dOlders   = dOlders + dOlder.
END.
PUT "Total" FORMAT "x(16)" dCurrents dThirties dSixties dOlders SKIP.
