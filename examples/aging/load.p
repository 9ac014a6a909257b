DO TRANSACTION:
  INPUT FROM "customer.d".
  REPEAT: CREATE Customer. IMPORT Customer. END.
  INPUT FROM "invoice.d".
  REPEAT: CREATE Invoice. IMPORT Invoice. END.
END.
