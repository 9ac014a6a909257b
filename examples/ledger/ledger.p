/* Books the transfers of its input, each in one transaction. A line that cannot be booked leaves nothing behind. */
DEFINE VARIABLE payer AS INTEGER NO-UNDO.
DEFINE VARIABLE payee AS INTEGER NO-UNDO.
DEFINE VARIABLE amount AS DECIMAL NO-UNDO.
DEFINE VARIABLE remark AS CHARACTER NO-UNDO.
DEFINE VARIABLE booked AS INTEGER NO-UNDO.
DEFINE VARIABLE total AS DECIMAL NO-UNDO.
DEFINE BUFFER FromAccount FOR Account.
DEFINE BUFFER ToAccount FOR Account.

DO TRANSACTION:
  REPEAT:
    CREATE Account.
    IMPORT Account.
  END.
END.

INPUT FROM "transfers.txt".
REPEAT:
  IMPORT payer payee amount remark.
  DO TRANSACTION ON ERROR UNDO, LEAVE:
    FIND FromAccount WHERE FromAccount.AccountNum = payer EXCLUSIVE-LOCK.
    FromAccount.Balance = FromAccount.Balance - amount.
    RUN post (payer, - amount).
    FIND ToAccount WHERE ToAccount.AccountNum = payee EXCLUSIVE-LOCK.
    ToAccount.Balance = ToAccount.Balance + amount.
    RUN post (payee, amount).
    IF FromAccount.Balance < 0 THEN DO:
      PUT UNFORMATTED FromAccount.Name " has too little for " remark SKIP.
      UNDO, LEAVE.
    END.
    booked = booked + 1.
  END.
END.

FOR EACH Account NO-LOCK:
  PUT Account.Name Account.Balance SKIP.
  total = total + Account.Balance.
  FOR EACH Posting WHERE Posting.AccountNum = Account.AccountNum NO-LOCK:
    PUT SPACE(2) Posting.Remark Posting.Amount SKIP.
  END.
END.
PUT UNFORMATTED "booked " booked ", total " total SKIP.

/* An error of a procedure ends here, unless it is returned: so the record is released, and checked, in a block that returns it. */
PROCEDURE post:
  DEFINE INPUT PARAMETER account AS INTEGER NO-UNDO.
  DEFINE INPUT PARAMETER amount AS DECIMAL NO-UNDO.
  DO ON ERROR UNDO, RETURN ERROR:
    CREATE Posting.
    ASSIGN
      Posting.PostingNum = NEXT-VALUE(NextPosting)
      Posting.AccountNum = account
      Posting.Amount = amount
      Posting.Remark = remark.
    RELEASE Posting.
  END.
END.
