/* The columns of a file of orders: with `names` a text that names them, else the fields of the buffer `of`. */
&IF DEFINED(names) &THEN
  "OrderNum CustNum Ordered Total"
&ELSE
  {&of}.OrderNum
  {&of}.CustNum
  {&of}.Ordered
  {&of}.Total
&ENDIF
