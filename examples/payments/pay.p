/* Makes one payment after the other, without an end. Each is one transaction with two postings: what one account gives, another gets. */
DEFINE VARIABLE number AS INTEGER NO-UNDO.

REPEAT TRANSACTION:
  number = NEXT-VALUE(NextPayment).
  CREATE Posting.
  ASSIGN Posting.Payment = number Posting.Account = "giver" Posting.Amount = - number.
  CREATE Posting.
  ASSIGN Posting.Payment = number Posting.Account = "taker" Posting.Amount = number.
END.
