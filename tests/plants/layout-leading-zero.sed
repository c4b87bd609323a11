s/digits = 1; \*number != 0 \&\& digits < 3/digits = 1; digits < 3/
