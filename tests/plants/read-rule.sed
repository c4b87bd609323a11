/^static uint8_t read(/,/^}/s/if (!below(s, lo, ld) || (!honest \&\& !captured))/if (!honest \&\& !captured)/
