apply --cluster 127.0.0.1:7000 --keys-per-second 1000000001
