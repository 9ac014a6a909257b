/* Books the count of one zone. A difference of much value is not booked: the bin is counted again. */
DEFINE INPUT PARAMETER pcZone    AS CHARACTER NO-UNDO.
DEFINE INPUT PARAMETER pcCounter AS CHARACTER NO-UNDO.
DEFINE VARIABLE cBin   LIKE Bin.BinCode NO-UNDO.
DEFINE VARIABLE iCount LIKE Bin.OnHand  NO-UNDO.
DEFINE VARIABLE iDiff  AS INTEGER NO-UNDO.

INPUT FROM VALUE("count." + pcZone).
REPEAT TRANSACTION:
  IMPORT cBin iCount.
  FIND Bin WHERE Bin.BinCode = cBin EXCLUSIVE-LOCK.
  FIND Item OF Bin EXCLUSIVE-LOCK.
  ASSIGN
    iDiff       = iCount - Bin.OnHand
    Bin.OnHand  = iCount
    Bin.Counted = TODAY
    Item.OnHand = Item.OnHand + iDiff.
  IF iDiff = 0 THEN NEXT.
  CREATE Adjust.
  ASSIGN
    Adjust.BinCode = cBin
    Adjust.AdjDate = TODAY
    Adjust.Diff    = iDiff
    Adjust.Amount  = iDiff * Item.Cost
    Adjust.Counter = pcCounter.
  IF ABSOLUTE(Adjust.Amount) > 250 THEN DO:
    DISPLAY cBin iDiff Adjust.Amount "count again".
    UNDO, NEXT.
  END.
  DISPLAY cBin iDiff Adjust.Amount.
END.
