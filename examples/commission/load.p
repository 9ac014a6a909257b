DO TRANSACTION:
  INPUT FROM "salesrep.d".
  REPEAT: CREATE SalesRep. IMPORT SalesRep. END.
  INPUT FROM "commplan.d".
  REPEAT: CREATE CommPlan. IMPORT CommPlan. END.
  INPUT FROM "invoice.d".
  REPEAT: CREATE Invoice. IMPORT Invoice. END.
END.
