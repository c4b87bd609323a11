/^static uint8_t move(/,/^}/s/!below(s, lo, level(s, driver)) ||/(!below(s, lo, level(s, driver)) \&\& (honest || !captured)) ||/
