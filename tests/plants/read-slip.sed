/^static uint8_t read(/,/^}/s/return honest ? TUPEHIWO_GRANTED : TUPEHIWO_SLIPPED/return TUPEHIWO_GRANTED/
