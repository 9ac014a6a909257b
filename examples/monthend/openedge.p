/* Closes the open period and carries each balance into the next one: all of it or nothing. */
DEFINE BUFFER bNext   FOR AcctBal.
DEFINE BUFFER bPeriod FOR Period.
DEFINE VARIABLE dClosing AS DECIMAL NO-UNDO.

DO TRANSACTION ON ERROR UNDO, LEAVE:
  FIND LAST Period EXCLUSIVE-LOCK.
  FOR EACH AcctBal WHERE AcctBal.PeriodNum = Period.PeriodNum SHARE-LOCK:
    dClosing = AcctBal.Opening + AcctBal.Debits - AcctBal.Credits.
    ACCUMULATE dClosing (TOTAL COUNT).
    FIND bNext WHERE bNext.PeriodNum = Period.PeriodNum + 1
      AND bNext.AcctNum = AcctBal.AcctNum EXCLUSIVE-LOCK NO-ERROR.
    IF NOT AVAILABLE bNext THEN DO:
      CREATE bNext.
      BUFFER-COPY AcctBal USING AcctNum TO bNext ASSIGN
        bNext.PeriodNum = Period.PeriodNum + 1.
    END.
    bNext.Opening = dClosing.
  END.
  IF (ACCUM TOTAL dClosing) <> 0 THEN DO:
    MESSAGE "Period" Period.PeriodNum "is out of balance by" (ACCUM TOTAL dClosing).
    UNDO, LEAVE.
  END.
  Period.Closed = YES.
  MESSAGE "Period" Period.PeriodNum "is closed," (ACCUM COUNT dClosing) "balances".
  CREATE bPeriod.
  bPeriod.PeriodNum = Period.PeriodNum + 1.
END.
