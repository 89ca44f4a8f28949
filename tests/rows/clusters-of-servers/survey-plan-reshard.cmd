plan-reshard --survey three.survey --from n0,n2 --to n1 --slots 100
