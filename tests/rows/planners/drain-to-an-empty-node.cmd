plan-drain --nodes 4 --even 3 --from n1
