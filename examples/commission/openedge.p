/* Commission of the invoices that have none yet, by sales representative: each statement whole or not at all. */
FUNCTION rateOf RETURNS DECIMAL (pcPlan AS CHARACTER, pdMargin AS DECIMAL):
  FIND FIRST CommPlan WHERE CommPlan.PlanCode = pcPlan
    AND CommPlan.FromMargin <= pdMargin NO-LOCK NO-ERROR.
  RETURN IF AVAILABLE CommPlan THEN CommPlan.Percent ELSE ?.
END FUNCTION.

blkRep:
FOR EACH SalesRep EXCLUSIVE-LOCK TRANSACTION:
  DISPLAY SalesRep.RepCode SalesRep.RepName.
  FOR EACH Invoice OF SalesRep WHERE Invoice.Comm = ? EXCLUSIVE-LOCK BY Invoice.InvNum:
    Invoice.Comm = ROUND(Invoice.Amount * rateOf(SalesRep.PlanCode, Invoice.Margin) / 100, 2).
    IF Invoice.Comm = ? THEN DO:
      MESSAGE "no rate for margin" Invoice.Margin "in plan" SalesRep.PlanCode.
      UNDO blkRep, NEXT blkRep.
    END.
    ACCUMULATE Invoice.Comm (TOTAL).
    DISPLAY Invoice.InvNum Invoice.Amount Invoice.Comm.
  END.
  SalesRep.YTDComm = SalesRep.YTDComm + (ACCUM TOTAL Invoice.Comm).
  DISPLAY "Total" (ACCUM TOTAL Invoice.Comm).
END.
