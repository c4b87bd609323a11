/^static uint8_t post(/,/^}/s/ || !has(s, READS, y, z))/)/
