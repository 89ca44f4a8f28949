plan-reshard --nodes 3 --from n0,n3 --to n1 --slots 1
