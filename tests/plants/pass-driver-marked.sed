/^static uint8_t pass(/,/^}/s/if (!marked(s, z) \&\& risky/if (!marked(s, z) \&\& !marked(s, field(s, x, DRIVER)) \&\& risky/
