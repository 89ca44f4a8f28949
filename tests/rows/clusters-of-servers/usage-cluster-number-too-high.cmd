survey --cluster 127.0.0.256:7000
