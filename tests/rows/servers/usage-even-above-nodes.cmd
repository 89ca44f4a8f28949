serve --nodes 3 --even 4
