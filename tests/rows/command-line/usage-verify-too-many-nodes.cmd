verify --nodes 9
