/^static uint8_t read(/,/^}/s/return TUPEHIWO_PATH;/return below(s, le, lo) || below(s, re, lo) || marked(s, driver) ? TUPEHIWO_PATH : TUPEHIWO_RULE;/
