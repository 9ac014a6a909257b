/* Variables of several kinds. Words and names may be in any case /* and comments nest */. */
def var total as decimal initial -1.50.
define variable Shipped as logical no-undo.
define variable due as date initial 2/29/2024.
do transaction:
  assign total = 0.125  SHIPPED = yes  due = ?.
  undo, leave.
end.
put unformatted "total " total ", shipped " shipped ", due " due skip.
