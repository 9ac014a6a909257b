/* New prices from a vendor's list, with our margin. A line that cannot be taken goes to the log. */
DEFINE STREAM sLog.
DEFINE VARIABLE dtToday AS DATE      NO-UNDO.
DEFINE VARIABLE cLine   AS CHARACTER NO-UNDO.
DEFINE VARIABLE cItem   AS CHARACTER NO-UNDO.
DEFINE VARIABLE cPrice  AS CHARACTER NO-UNDO.
DEFINE VARIABLE dNew    AS DECIMAL   NO-UNDO.
DEFINE VARIABLE iLine   AS INTEGER   NO-UNDO.
DEFINE VARIABLE iTaken  AS INTEGER   NO-UNDO.

OUTPUT STREAM sLog TO "prices.log".
IMPORT dtToday.
REPEAT:
  IMPORT cLine.
  ASSIGN
    iLine  = iLine + 1
    cItem  = ENTRY(1, cLine, ";")
    cPrice = ENTRY(2, cLine, ";").
  FIND Item WHERE Item.ItemNum = cItem EXCLUSIVE-LOCK NO-ERROR.
  IF NOT AVAILABLE Item THEN DO:
    PUT STREAM sLog UNFORMATTED iLine ": " cItem " is not ours" SKIP.
    NEXT.
  END.
  dNew = INT64(DECIMAL(cPrice) * 1.075 * 100) / 100 NO-ERROR.
  IF ERROR-STATUS:ERROR THEN DO:
    PUT STREAM sLog UNFORMATTED iLine ": " cItem " has no price: " cPrice SKIP.
    NEXT.
  END.
  CREATE PriceHist.
  ASSIGN
    PriceHist.ItemNum   = cItem
    PriceHist.ValidFrom = dtToday + 1
    PriceHist.OldPrice  = Item.Price
    PriceHist.NewPrice  = dNew
    Item.Price          = dNew NO-ERROR.
  IF ERROR-STATUS:ERROR THEN DO:
    PUT STREAM sLog UNFORMATTED iLine ": " cItem " was there before" SKIP.
    UNDO, NEXT.
  END.
  IF dNew > PriceHist.OldPrice * 1.25 THEN DO:
    PUT STREAM sLog UNFORMATTED iLine ": " cItem " from " PriceHist.OldPrice " to " dNew SKIP.
    UNDO, NEXT.
  END.
  iTaken = iTaken + 1.
END.
MESSAGE iTaken "of" iLine "prices".
