plan-drain --nodes 2 --from n0,n1
