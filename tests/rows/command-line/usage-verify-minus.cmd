verify --nodes -3
