verify --even 2
