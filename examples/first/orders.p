DEFINE VARIABLE sold AS INTEGER.
DEFINE VARIABLE refused AS INTEGER NO-UNDO.
CREATE Stock. Stock.Pieces = 10.
REPEAT WHILE refused < 2:
  ASSIGN Stock.Pieces = Stock.Pieces - 4 sold = sold + 4.
  IF Stock.Pieces < 0 THEN DO: refused = refused + 1. UNDO, NEXT. END.
END.
PUT UNFORMATTED sold " sold, " refused " refused, " Stock.Pieces " left" SKIP.
