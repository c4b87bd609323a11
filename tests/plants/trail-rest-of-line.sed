s/input.too_long = length == BLOCK;/input.too_long = 0;/
