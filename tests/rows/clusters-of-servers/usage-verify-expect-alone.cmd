verify --nodes 3 --expect names
