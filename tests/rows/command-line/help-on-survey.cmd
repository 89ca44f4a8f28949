survey --help
