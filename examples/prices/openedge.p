/* New prices from a vendor's list, with our margin. A line that cannot be taken goes to the log. */
DEFINE STREAM sLog.
DEFINE VARIABLE cItem  LIKE Item.ItemNum NO-UNDO.
DEFINE VARIABLE cPrice AS CHARACTER NO-UNDO.
DEFINE VARIABLE dNew   AS DECIMAL   NO-UNDO.
DEFINE VARIABLE iLine  AS INTEGER   NO-UNDO.
DEFINE VARIABLE iTaken AS INTEGER   NO-UNDO.

OUTPUT STREAM sLog TO VALUE("prices" + STRING(TODAY, "999999") + ".log").
INPUT FROM "vendor.csv".
REPEAT:
  IMPORT DELIMITER ";" cItem cPrice.
  iLine = iLine + 1.
  FIND Item WHERE Item.ItemNum = cItem EXCLUSIVE-LOCK NO-ERROR.
  IF NOT AVAILABLE Item THEN DO:
    PUT STREAM sLog UNFORMATTED SUBSTITUTE("&1: &2 is not ours", iLine, cItem) SKIP.
    NEXT.
  END.
  dNew = ROUND(DECIMAL(cPrice) * 1.075, 2) NO-ERROR.
  IF ERROR-STATUS:ERROR THEN DO:
    PUT STREAM sLog UNFORMATTED SUBSTITUTE("&1: &2 has no price: &3", iLine, cItem, cPrice) SKIP.
    NEXT.
  END.
  CREATE PriceHist.
  ASSIGN
    PriceHist.ItemNum   = cItem
    PriceHist.ValidFrom = TODAY + 1
    PriceHist.OldPrice  = Item.Price
    PriceHist.NewPrice  = dNew
    Item.Price          = dNew NO-ERROR.
  IF ERROR-STATUS:ERROR THEN DO:
    PUT STREAM sLog UNFORMATTED SUBSTITUTE("&1: &2 was there before", iLine, cItem) SKIP.
    UNDO, NEXT.
  END.
  IF dNew > PriceHist.OldPrice * 1.25 THEN DO:
    PUT STREAM sLog UNFORMATTED SUBSTITUTE("&1: &2 from &3 to &4", iLine, cItem, PriceHist.OldPrice, dNew) SKIP.
    UNDO, NEXT.
  END.
  iTaken = iTaken + 1.
END.
MESSAGE iTaken "of" iLine "prices".
