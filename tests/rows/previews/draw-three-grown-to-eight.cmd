draw --nodes 8 --even 3
