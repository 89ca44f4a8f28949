resume --by 5
