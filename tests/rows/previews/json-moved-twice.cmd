explain --nodes 3 --json
