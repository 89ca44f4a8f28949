verify --nodes 3 --nodes 4
