plan-rebalance --help
