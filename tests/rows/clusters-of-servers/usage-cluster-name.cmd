survey --cluster localhost:7000
