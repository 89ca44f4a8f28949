plan-drain --nodes 3 --from n2
