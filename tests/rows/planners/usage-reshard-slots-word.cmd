plan-reshard --nodes 3 --from n0 --to n1 --slots most
