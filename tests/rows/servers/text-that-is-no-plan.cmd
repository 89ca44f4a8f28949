serve --nodes 3 --plan
