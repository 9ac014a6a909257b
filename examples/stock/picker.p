/* Takes the pieces that its input asks for, each in a transaction of its own, for the picker that the first line names. */
DEFINE VARIABLE picker AS CHARACTER NO-UNDO.
DEFINE VARIABLE item AS CHARACTER NO-UNDO.
DEFINE VARIABLE pieces AS INTEGER NO-UNDO.
DEFINE VARIABLE i AS INTEGER NO-UNDO.
DEFINE VARIABLE picks AS INTEGER NO-UNDO.

IMPORT picker.
RUN wait.

REPEAT:
  IMPORT item pieces.
  DO FOR Shelf, Pick i = 1 TO pieces TRANSACTION:
    /* Where the other picker has the shelf, this waits until its transaction has ended. */
    FIND Shelf WHERE Shelf.Item = item EXCLUSIVE-LOCK.
    Shelf.Pieces = Shelf.Pieces - 1.
    picks = picks + 1.
    CREATE Pick.
    ASSIGN
      Pick.Picker = picker
      Pick.PickNum = picks
      Pick.Item = item.
  END.
END.
PUT UNFORMATTED "picked " picks SKIP.

/* Returns when the shelves are there: until their transaction ends, the first record is locked. */
PROCEDURE wait:
  REPEAT:
    FIND FIRST Shelf SHARE-LOCK NO-ERROR.
    IF AVAILABLE Shelf THEN RETURN.
  END.
END.
