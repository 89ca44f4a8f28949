verify --nodes 3 --even 9
