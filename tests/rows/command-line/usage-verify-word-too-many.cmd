verify --nodes 3 plan
