/^static uint8_t write(/,/^}/s/if (captured)/if (1)/
