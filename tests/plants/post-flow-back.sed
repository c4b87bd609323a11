/^static uint8_t post(/,/^}/s/add(s, FLOWS, x, y);/add(s, FLOWS, y, x);/
