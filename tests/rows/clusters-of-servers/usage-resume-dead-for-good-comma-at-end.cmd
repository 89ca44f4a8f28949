resume --cluster 127.0.0.1:7000 --dead-for-good 0123456789abcdef0123456789abcdef01234567,
