plan-reshard --nodes 3 --from n0,n2 --to n1 --slots all
