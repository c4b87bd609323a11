s/digits < 3 \&\& is_digit/digits < 4 \&\& is_digit/
