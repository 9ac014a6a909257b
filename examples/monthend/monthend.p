/* Closes the open period and carries each balance into the next one: all of it or nothing. */
DEFINE BUFFER bNext   FOR AcctBal.
DEFINE BUFFER bPeriod FOR Period.
DEFINE VARIABLE dClosing  AS DECIMAL NO-UNDO.
DEFINE VARIABLE dTotal    AS DECIMAL NO-UNDO.
DEFINE VARIABLE iBalances AS INTEGER NO-UNDO.

DO TRANSACTION ON ERROR UNDO, LEAVE:
  FIND LAST Period EXCLUSIVE-LOCK.
  FOR EACH AcctBal WHERE AcctBal.PeriodNum = Period.PeriodNum SHARE-LOCK:
    ASSIGN
      dClosing  = AcctBal.Opening + AcctBal.Debits - AcctBal.Credits
      dTotal    = dTotal + dClosing
      iBalances = iBalances + 1.
    FIND bNext WHERE bNext.PeriodNum = Period.PeriodNum + 1
      AND bNext.AcctNum = AcctBal.AcctNum EXCLUSIVE-LOCK NO-ERROR.
    IF NOT AVAILABLE bNext THEN DO:
      CREATE bNext.
      ASSIGN
        bNext.AcctNum   = AcctBal.AcctNum
        bNext.PeriodNum = Period.PeriodNum + 1.
    END.
    bNext.Opening = dClosing.
  END.
  IF dTotal <> 0 THEN DO:
    MESSAGE "Period" Period.PeriodNum "is out of balance by" dTotal.
    UNDO, LEAVE.
  END.
  Period.Closed = YES.
  MESSAGE "Period" Period.PeriodNum "is closed," iBalances "balances".
  CREATE bPeriod.
  bPeriod.PeriodNum = Period.PeriodNum + 1.
END.
