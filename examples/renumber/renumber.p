/* Gives customers new numbers, with all that refers to them. */
DEFINE VARIABLE iOld AS INTEGER NO-UNDO.
DEFINE VARIABLE iNew AS INTEGER NO-UNDO.

INPUT FROM "newnums.txt".
blkMap:
REPEAT TRANSACTION ON ERROR UNDO, NEXT:
  IMPORT iOld iNew.
  FIND Customer WHERE Customer.CustNum = iOld EXCLUSIVE-LOCK.
  FOR EACH Order WHERE Order.CustNum = Customer.CustNum USE-INDEX CustOrder EXCLUSIVE-LOCK
      ON ERROR UNDO blkMap, NEXT blkMap:
    Order.CustNum = iNew.
  END.
  FOR EACH Contact WHERE Contact.CustNum = Customer.CustNum EXCLUSIVE-LOCK
      ON ERROR UNDO blkMap, NEXT blkMap:
    Contact.CustNum = iNew.
  END.
  Customer.CustNum = iNew.
  MESSAGE STRING(iOld) + " is " + STRING(iNew) + ": " + Customer.CustName.
END.
