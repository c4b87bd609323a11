/^static uint8_t execute(/,/^}/s/made >= THINGS/made >= THINGS - 1/
