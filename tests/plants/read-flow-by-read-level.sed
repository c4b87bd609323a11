/^static uint8_t read(/,/^}/s/(below(s, le, ld) \&\& (captured/(below(s, re, ld) \&\& (captured/
