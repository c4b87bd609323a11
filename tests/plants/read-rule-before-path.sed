/^static uint8_t read(/,/^}/s/return TUPEHIWO_PATH;/return below(s, lo, ld) ? TUPEHIWO_PATH : TUPEHIWO_RULE;/
