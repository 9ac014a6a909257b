DO TRANSACTION:
  INPUT FROM "period.d".
  REPEAT: CREATE Period. IMPORT Period. END.
  INPUT FROM "acctbal.d".
  REPEAT: CREATE AcctBal. IMPORT AcctBal. END.
END.
