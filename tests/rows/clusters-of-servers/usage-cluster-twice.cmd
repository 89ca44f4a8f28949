survey --cluster 127.0.0.1:7000 --cluster 127.0.0.1:7001
