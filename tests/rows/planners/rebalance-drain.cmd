plan-rebalance --nodes 3 --weights 1,1,0
