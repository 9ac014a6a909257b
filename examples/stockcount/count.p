/* Books the count of one zone. A difference of much value is not booked: the bin is counted again. */
DEFINE VARIABLE cCounter AS CHARACTER NO-UNDO.
DEFINE VARIABLE dtCount  AS DATE      NO-UNDO.
DEFINE VARIABLE cBin     AS CHARACTER NO-UNDO.
DEFINE VARIABLE iCount   AS INTEGER   NO-UNDO.
DEFINE VARIABLE iDiff    AS INTEGER   NO-UNDO.

IMPORT cCounter dtCount.
REPEAT FOR Bin, Item, Adjust TRANSACTION:
  IMPORT cBin iCount.
  FIND Bin WHERE Bin.BinCode = cBin EXCLUSIVE-LOCK.
  /* Where the other counter has a bin of the same item, this waits until it is booked. */
  FIND Item WHERE Item.ItemNum = Bin.ItemNum EXCLUSIVE-LOCK.
  ASSIGN
    iDiff       = iCount - Bin.OnHand
    Bin.OnHand  = iCount
    Bin.Counted = dtCount
    Item.OnHand = Item.OnHand + iDiff.
  IF iDiff = 0 THEN NEXT.
  CREATE Adjust.
  ASSIGN
    Adjust.BinCode = cBin
    Adjust.AdjDate = dtCount
    Adjust.Diff    = iDiff
    Adjust.Amount  = iDiff * Item.Cost
    Adjust.Counter = cCounter.
  IF (IF Adjust.Amount < 0 THEN - Adjust.Amount ELSE Adjust.Amount) > 250 THEN DO:
    PUT cBin iDiff FORMAT "->>9" Adjust.Amount " count again" FORMAT "x(12)" SKIP.
    UNDO, NEXT.
  END.
  PUT cBin iDiff FORMAT "->>9" Adjust.Amount SKIP.
END.
