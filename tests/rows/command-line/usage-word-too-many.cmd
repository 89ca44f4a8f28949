rehearse now
