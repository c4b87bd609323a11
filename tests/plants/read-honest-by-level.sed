/^static uint8_t read(/,/^}/s/int honest = below(s, le, lo) || below(s, re, lo);/int honest = below(s, le, lo);/
