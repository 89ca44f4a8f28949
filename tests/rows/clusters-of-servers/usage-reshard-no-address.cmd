plan-reshard --cluster n0 --from n0 --to n1 --slots 1
