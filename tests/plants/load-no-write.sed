/^static uint8_t lay_object(/,/^}/s/uint8_t verdict = write(s, 0, through, container);/uint8_t verdict = TUPEHIWO_GRANTED;/
