/^static uint8_t move(/,/^}/s/!below(s, lo, level(s, to)) ||/(!below(s, lo, level(s, to)) \&\& (honest || !captured)) ||/
