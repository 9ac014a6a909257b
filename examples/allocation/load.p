DO TRANSACTION:
  INPUT FROM "stock.d".
  REPEAT: CREATE Stock. IMPORT Stock. END.
  INPUT FROM "order.d".
  REPEAT: CREATE Order. IMPORT Order. END.
  INPUT FROM "orderline.d".
  REPEAT: CREATE OrderLine. IMPORT OrderLine. END.
END.
