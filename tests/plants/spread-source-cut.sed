/^static uint8_t spread(/,/^}/s/FLOWS, take(&sources)/FLOWS, take(\&sources) % 64/
