/^static uint8_t write(/,/^}/s/return honest ? TUPEHIWO_GRANTED : TUPEHIWO_SLIPPED/return TUPEHIWO_GRANTED/
