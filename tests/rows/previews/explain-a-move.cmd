explain --nodes 3
