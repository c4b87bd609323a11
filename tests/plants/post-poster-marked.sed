/^static uint8_t post(/,/^}/s/if (!marked(s, y) \&\& risky/if (!marked(s, y) \&\& !marked(s, x) \&\& risky/
