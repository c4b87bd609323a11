/^static uint8_t post(/,/^}/s/risky(s, y, z)/risky(s, x, z)/
