/* Commission of the invoices that have none yet, by sales representative: each statement whole or not at all. */
DEFINE VARIABLE dSum  AS DECIMAL NO-UNDO.
DEFINE VARIABLE dRate AS DECIMAL NO-UNDO.

blkRep:
FOR EACH SalesRep EXCLUSIVE-LOCK TRANSACTION:
  dSum = 0.
  PUT SalesRep.RepCode SalesRep.RepName SKIP.
  FOR EACH Invoice WHERE Invoice.RepCode = SalesRep.RepCode AND Invoice.Comm = ? USE-INDEX RepInv EXCLUSIVE-LOCK
      ON ERROR UNDO blkRep, NEXT blkRep:
    RUN rateOf (SalesRep.PlanCode, Invoice.Margin, OUTPUT dRate).
    Invoice.Comm = INT64(Invoice.Amount * dRate) / 100.
    dSum = dSum + Invoice.Comm.
    PUT Invoice.InvNum FORMAT ">>>>>9" Invoice.Amount Invoice.Comm SKIP.
  END.
  SalesRep.YTDComm = SalesRep.YTDComm + dSum.
  PUT " Total" FORMAT "x(6)" SPACE(10) dSum FORMAT "->,>>9.99" SKIP.
END.

PROCEDURE rateOf:
  DEFINE INPUT  PARAMETER pcPlan   AS CHARACTER NO-UNDO.
  DEFINE INPUT  PARAMETER pdMargin AS DECIMAL   NO-UNDO.
  DEFINE OUTPUT PARAMETER pdRate   AS DECIMAL   NO-UNDO.
  FIND FIRST CommPlan WHERE CommPlan.PlanCode = pcPlan
    AND CommPlan.FromMargin <= pdMargin NO-LOCK NO-ERROR.
  IF NOT AVAILABLE CommPlan THEN DO:
    MESSAGE "no rate for margin" pdMargin "in plan" pcPlan.
    RETURN ERROR.
  END.
  pdRate = CommPlan.Percent.
END.
