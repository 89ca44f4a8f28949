forget --cluster 127.0.0.1:7000
