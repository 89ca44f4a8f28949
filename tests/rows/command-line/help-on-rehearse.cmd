rehearse --help
