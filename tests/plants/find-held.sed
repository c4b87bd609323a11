/^static uint8_t find(/,/^}/s/!has(s, FLOWS, x, z) || //
