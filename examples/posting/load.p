DO TRANSACTION:
  INPUT FROM "account.d".
  REPEAT: CREATE Account. IMPORT Account. END.
  INPUT FROM "period.d".
  REPEAT: CREATE Period. IMPORT Period. END.
  INPUT FROM "batch.d".
  REPEAT: CREATE Batch. IMPORT Batch. END.
  INPUT FROM "jrnlline.d".
  REPEAT: CREATE JrnlLine. IMPORT JrnlLine. END.
END.
