apply --cluster 127.0.0.1:7000 --dead-for-good n1
