plan-drain --nodes 3 --from n0,n1 --to n1
