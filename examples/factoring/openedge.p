/* Writes the invoices that the bank has not had, with control totals, and marks them as sent. */
DEFINE INPUT PARAMETER pdLedger AS DECIMAL NO-UNDO. /* what the ledger says is not sent */
DEFINE VARIABLE iFile  AS INTEGER NO-UNDO.
DEFINE VARIABLE iCount AS INTEGER NO-UNDO.
DEFINE VARIABLE dTotal AS DECIMAL NO-UNDO.
DEFINE VARIABLE iHash  AS INT64   NO-UNDO.

iFile = NEXT-VALUE(NextFile).
OUTPUT TO VALUE("bank" + STRING(iFile, "99999") + ".txt").
DO TRANSACTION:
  PUT UNFORMATTED "H" STRING(iFile, "99999") STRING(YEAR(TODAY) * 10000 + MONTH(TODAY) * 100 + DAY(TODAY)) SKIP.
  FOR EACH Invoice WHERE Invoice.SentFile = 0 EXCLUSIVE-LOCK BY Invoice.InvNum:
    PUT UNFORMATTED "D" STRING(Invoice.InvNum, "99999999") STRING(Invoice.CustNum, "999999")
      (IF Invoice.Amount < 0 THEN "-" ELSE "+") STRING(ABSOLUTE(Invoice.Amount) * 100, "99999999999") SKIP.
    ASSIGN
      iCount           = iCount + 1
      dTotal           = dTotal + Invoice.Amount
      iHash            = iHash + Invoice.CustNum
      Invoice.SentFile = iFile.
  END.
  IF dTotal <> pdLedger THEN DO:
    PUT UNFORMATTED "X" SKIP.
    OUTPUT CLOSE.
    MESSAGE SUBSTITUTE("File &1: &2 in place of &3", iFile, dTotal, pdLedger).
    UNDO, LEAVE.
  END.
  PUT UNFORMATTED "T" STRING(iCount, "999999") (IF dTotal < 0 THEN "-" ELSE "+")
    STRING(ABSOLUTE(dTotal) * 100, "99999999999") STRING(iHash, "9999999999") SKIP.
  OUTPUT CLOSE.
  MESSAGE SUBSTITUTE("File &1: &2 invoices, &3", iFile, iCount, dTotal).
END.
