DO TRANSACTION:
  INPUT FROM "customer.d".
  REPEAT: CREATE Customer. IMPORT Customer. END.
  INPUT FROM "order.d".
  REPEAT: CREATE Order. IMPORT Order. END.
  INPUT FROM "contact.d".
  REPEAT: CREATE Contact. IMPORT Contact. END.
END.
