s/digits < 3 \&\& is_digit/digits < 2 \&\& is_digit/
