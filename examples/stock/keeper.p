/* Fills the shelves, waits until all that is on them is picked, and says how many pieces each picker took. */
DEFINE VARIABLE left AS INTEGER NO-UNDO.
DEFINE VARIABLE pieces AS INTEGER NO-UNDO.
DEFINE VARIABLE picker AS CHARACTER NO-UNDO.

DO TRANSACTION:
  REPEAT:
    CREATE Shelf.
    IMPORT Shelf.
  END.
END.

REPEAT:
  left = 0.
  FOR EACH Shelf SHARE-LOCK:
    left = left + Shelf.Pieces.
  END.
  IF left = 0 THEN LEAVE.
END.

FOR EACH Pick NO-LOCK:
  IF Pick.Picker <> picker AND pieces > 0 THEN RUN show.
  picker = Pick.Picker.
  pieces = pieces + 1.
END.
RUN show.

PROCEDURE show:
  PUT UNFORMATTED picker " took " pieces SKIP.
  pieces = 0.
END.
