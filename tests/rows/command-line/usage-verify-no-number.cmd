verify --nodes x
