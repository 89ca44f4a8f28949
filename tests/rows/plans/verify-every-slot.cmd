verify --nodes 8
