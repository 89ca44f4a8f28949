draw --nodes 3 --now
