plan-drain --nodes 3 --from n0 --to all
