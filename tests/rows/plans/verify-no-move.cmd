verify --nodes 1
