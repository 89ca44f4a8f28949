resume --nodes 3
