forget --help
