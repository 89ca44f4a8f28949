explain --nodes 8 --even 3 --json
