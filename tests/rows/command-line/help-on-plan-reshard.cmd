plan-reshard --help
