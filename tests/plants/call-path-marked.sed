/^static uint8_t call(/,/^}/s/if (!trusted \&\& !below/if (!trusted \&\& !marked(s, caller) \&\& !below/
