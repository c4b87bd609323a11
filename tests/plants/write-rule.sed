/^static uint8_t write(/,/^}/s/!below(s, lo, level(s, driver)) || (!honest/(!honest/
