plan-drain --help
