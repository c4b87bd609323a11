/^static uint8_t move(/,/^}/s/return honest ? TUPEHIWO_GRANTED : TUPEHIWO_SLIPPED/return TUPEHIWO_GRANTED/
