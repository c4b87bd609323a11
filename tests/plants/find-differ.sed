/^static uint8_t find(/,/^}/s/if (x == y)/if (x == z)/
