/^static uint8_t read(/,/^}/s/if (!below(s, le, ld) \&\& !below(s, re, ld))/if (!below(s, re, ld))/
