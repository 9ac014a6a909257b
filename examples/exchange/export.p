/* Writes the orders of a customer as a file of orders. */
&SCOPED-DEFINE customer 7
EXPORT {fields.i &names=yes}.
FOR EACH Order WHERE Order.CustNum = {&customer} NO-LOCK:
  EXPORT {fields.i &of=Order}.
END.
