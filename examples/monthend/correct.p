/* The receipt 5518 was booked with two digits exchanged: 620.40 for 602.40. */
DO TRANSACTION:
  FIND AcctBal WHERE AcctBal.PeriodNum = 11 AND AcctBal.AcctNum = 1200 EXCLUSIVE-LOCK.
  AcctBal.Credits = AcctBal.Credits - 18.
END.
