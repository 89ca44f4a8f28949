verify --expect names
