/* Posts the batches that wait, each whole or not at all, with a running balance in each posting. */
DEFINE VARIABLE dSum    AS DECIMAL   NO-UNDO.
DEFINE VARIABLE cReason AS CHARACTER NO-UNDO.

blkBatch:
FOR EACH Batch WHERE NOT Batch.Posted EXCLUSIVE-LOCK TRANSACTION:
  ASSIGN dSum = 0 cReason = "".
  IF NOT CAN-FIND(FIRST Period WHERE Period.Starts <= Batch.PostDate
                  AND Period.Ends >= Batch.PostDate AND NOT Period.Closed) THEN
    cReason = "no open period".
  ELSE FOR EACH JrnlLine OF Batch NO-LOCK:
    FIND Account OF JrnlLine EXCLUSIVE-LOCK NO-ERROR.
    IF NOT AVAILABLE Account THEN DO:
      cReason = SUBSTITUTE("line &1: no account &2", JrnlLine.LineNum, JrnlLine.AcctNum).
      LEAVE.
    END.
    ASSIGN
      Account.Balance = Account.Balance + JrnlLine.Amount
      dSum            = dSum + JrnlLine.Amount.
    CREATE GLTrans.
    BUFFER-COPY JrnlLine TO GLTrans ASSIGN
      GLTrans.TransNum  = NEXT-VALUE(NextTrans)
      GLTrans.EntryDate = TODAY
      GLTrans.Balance   = Account.Balance.
  END.
  IF cReason = "" AND dSum <> 0 THEN
    cReason = "out of balance by " + TRIM(STRING(dSum, "->>>,>>9.99")).
  IF cReason > "" THEN DO:
    MESSAGE "Batch" Batch.BatchNum cReason.
    UNDO blkBatch, NEXT blkBatch.
  END.
  Batch.Posted = YES.
END.
