rehearse --now
