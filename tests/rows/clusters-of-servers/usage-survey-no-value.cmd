survey --cluster
