1010 "Cash" 12500
1200 "Receivables" 8300
4000 "Sales" -20000
5100 "Freight" 410.5
