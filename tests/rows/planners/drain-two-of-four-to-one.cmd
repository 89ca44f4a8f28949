plan-drain --nodes 4 --from n0,n3 --to n1 --batch 100
