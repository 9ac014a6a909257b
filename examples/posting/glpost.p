/* Posts the batches that wait, each whole or not at all, with a running balance in each posting. */
DEFINE VARIABLE dSum    AS DECIMAL   NO-UNDO.
DEFINE VARIABLE cReason AS CHARACTER NO-UNDO.
DEFINE VARIABLE dtEntry AS DATE      NO-UNDO.

IMPORT dtEntry.

blkBatch:
FOR EACH Batch WHERE NOT Batch.Posted EXCLUSIVE-LOCK TRANSACTION:
  ASSIGN dSum = 0 cReason = "".
  FIND FIRST Period WHERE Period.Starts <= Batch.PostDate
    AND Period.Ends >= Batch.PostDate AND NOT Period.Closed NO-LOCK NO-ERROR.
  IF NOT AVAILABLE Period THEN
    cReason = "no open period".
  ELSE FOR EACH JrnlLine WHERE JrnlLine.BatchNum = Batch.BatchNum NO-LOCK:
    FIND Account WHERE Account.AcctNum = JrnlLine.AcctNum EXCLUSIVE-LOCK NO-ERROR.
    IF NOT AVAILABLE Account THEN DO:
      cReason = "line " + STRING(JrnlLine.LineNum) + ": no account " + STRING(JrnlLine.AcctNum).
      LEAVE.
    END.
    ASSIGN
      Account.Balance = Account.Balance + JrnlLine.Amount
      dSum            = dSum + JrnlLine.Amount.
    CREATE GLTrans.
    ASSIGN
      GLTrans.TransNum  = NEXT-VALUE(NextTrans)
      GLTrans.AcctNum   = JrnlLine.AcctNum
      GLTrans.EntryDate = dtEntry
      GLTrans.Amount    = JrnlLine.Amount
      GLTrans.Balance   = Account.Balance
      GLTrans.Descr     = JrnlLine.Descr.
  END.
  IF cReason = "" AND dSum <> 0 THEN
    cReason = "out of balance by " + STRING(dSum).
  IF cReason > "" THEN DO:
    MESSAGE "Batch" Batch.BatchNum cReason.
    UNDO blkBatch, NEXT blkBatch.
  END.
  Batch.Posted = YES.
END.

FOR EACH Account NO-LOCK:
  PUT Account.AcctNum FORMAT "9999" SPACE Account.AcctName Account.Balance SKIP.
  FOR EACH GLTrans WHERE GLTrans.AcctNum = Account.AcctNum USE-INDEX AcctTrans NO-LOCK:
    PUT SPACE(5) GLTrans.Descr GLTrans.Amount GLTrans.Balance SPACE GLTrans.EntryDate SPACE GLTrans.TransNum FORMAT "99999" SKIP.
  END.
END.
