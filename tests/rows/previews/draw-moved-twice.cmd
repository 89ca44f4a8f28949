draw --nodes 3
