plan-reshard --nodes 3 --even 2 --from n2 --to n1 --slots all
