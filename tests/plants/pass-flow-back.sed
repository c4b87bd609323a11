/^static uint8_t pass(/,/^}/s/add(s, FLOWS, x, y);/add(s, FLOWS, y, x);/
