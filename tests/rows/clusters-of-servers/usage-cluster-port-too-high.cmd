survey --cluster 127.0.0.1:65536
