plan-rebalance --survey three.survey --weights n0=2 --batch 100
