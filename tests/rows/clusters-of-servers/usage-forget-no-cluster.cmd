forget n3
