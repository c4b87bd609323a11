/^static uint8_t read(/,/^}/s/(captured || below(s, le, lo))/below(s, le, lo)/
