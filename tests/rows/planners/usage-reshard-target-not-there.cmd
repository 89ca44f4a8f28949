plan-reshard --nodes 3 --from n0 --to n3 --slots 1
