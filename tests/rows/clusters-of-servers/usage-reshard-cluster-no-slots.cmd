plan-reshard --cluster 127.0.0.1:7000 --from n0 --to n1
