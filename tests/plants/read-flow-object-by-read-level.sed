/^static uint8_t read(/,/^}/s/(captured || below(s, le, lo))/(captured || below(s, re, lo))/
