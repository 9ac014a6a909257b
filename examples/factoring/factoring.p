/* Writes the invoices that the bank has not had, with control totals, and marks them as sent. */
DEFINE VARIABLE dtToday AS DATE    NO-UNDO.
DEFINE VARIABLE dLedger AS DECIMAL NO-UNDO. /* what the ledger says is not sent */
DEFINE VARIABLE iFile   AS INTEGER NO-UNDO.
DEFINE VARIABLE iCount  AS INTEGER NO-UNDO.
DEFINE VARIABLE dTotal  AS DECIMAL NO-UNDO.
DEFINE VARIABLE iHash   AS INT64   NO-UNDO.

IMPORT dtToday dLedger.
iFile = NEXT-VALUE(NextFile).
OUTPUT TO "bank.txt".
DO TRANSACTION:
  PUT UNFORMATTED "H" STRING(iFile, "99999") STRING(YEAR(dtToday) * 10000 + MONTH(dtToday) * 100 + DAY(dtToday)) SKIP.
  FOR EACH Invoice WHERE Invoice.SentFile = 0 USE-INDEX SentFile EXCLUSIVE-LOCK:
    PUT UNFORMATTED "D" STRING(Invoice.InvNum, "99999999") STRING(Invoice.CustNum, "999999")
      (IF Invoice.Amount < 0 THEN "-" ELSE "+")
      STRING((IF Invoice.Amount < 0 THEN - Invoice.Amount ELSE Invoice.Amount) * 100, "99999999999") SKIP.
    ASSIGN
      iCount           = iCount + 1
      dTotal           = dTotal + Invoice.Amount
      iHash            = iHash + Invoice.CustNum
      Invoice.SentFile = iFile.
  END.
  IF dTotal <> dLedger THEN DO:
    PUT UNFORMATTED "X" SKIP.
    OUTPUT CLOSE.
    MESSAGE "File" STRING(iFile) + ":" dTotal "in place of" dLedger.
    UNDO, LEAVE.
  END.
  PUT UNFORMATTED "T" STRING(iCount, "999999") (IF dTotal < 0 THEN "-" ELSE "+")
    STRING((IF dTotal < 0 THEN - dTotal ELSE dTotal) * 100, "99999999999") STRING(iHash, "9999999999") SKIP.
  OUTPUT CLOSE.
  MESSAGE "File" STRING(iFile) + ":" iCount "invoices," dTotal.
END.
