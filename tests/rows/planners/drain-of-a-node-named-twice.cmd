plan-drain --nodes 3 --from n0,n0 --to n1,n2,n2
