/* Adds up the amounts of all postings. The two of a payment cancel each other out, so a payment by half would show. */
DEFINE VARIABLE amounts AS INT64 NO-UNDO.

FOR EACH Posting NO-LOCK:
  amounts = amounts + Posting.Amount.
END.
PUT UNFORMATTED "the postings sum up to " amounts SKIP.
