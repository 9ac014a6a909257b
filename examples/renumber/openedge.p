/* Gives customers new numbers, with all that refers to them. */
DEFINE VARIABLE iOld LIKE Customer.CustNum NO-UNDO.
DEFINE VARIABLE iNew LIKE Customer.CustNum NO-UNDO.

DISABLE TRIGGERS FOR LOAD OF Customer.
INPUT FROM newnums.txt.
blkMap:
REPEAT TRANSACTION ON ERROR UNDO, NEXT:
  IMPORT iOld iNew.
  FIND Customer WHERE Customer.CustNum = iOld EXCLUSIVE-LOCK.
  FOR EACH Order OF Customer EXCLUSIVE-LOCK
      ON ERROR UNDO blkMap, NEXT blkMap:
    Order.CustNum = iNew.
  END.
  FOR EACH Contact OF Customer EXCLUSIVE-LOCK
      ON ERROR UNDO blkMap, NEXT blkMap:
    Contact.CustNum = iNew.
  END.
  Customer.CustNum = iNew.
  MESSAGE SUBSTITUTE("&1 is &2: &3", iOld, iNew, CAPS(Customer.CustName)).
END.
