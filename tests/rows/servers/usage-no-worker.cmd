serve --nodes 3 --workers 0
