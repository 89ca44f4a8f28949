serve --nodes 3 --base-port 65529
