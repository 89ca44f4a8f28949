apply --timeout 5
