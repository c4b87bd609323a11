/^static uint8_t write(/,/^}/s/if (!below(s, lo, level(s, driver)) || (!honest/if ((!below(s, lo, level(s, driver)) \&\& (honest || !captured)) || (!honest/
