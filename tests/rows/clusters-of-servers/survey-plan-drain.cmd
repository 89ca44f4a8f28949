plan-drain --survey three.survey --from n2 --to n0 --batch 100
