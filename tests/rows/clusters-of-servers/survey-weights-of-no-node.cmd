plan-rebalance --survey three.survey --weights n3=2
