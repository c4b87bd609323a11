/^static uint8_t spread(/,/^}/s/return rounds;/return rounds % 64;/
