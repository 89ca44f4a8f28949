plan-reshard --nodes 3 --even 4 --from n9 --to n1 --slots 1
