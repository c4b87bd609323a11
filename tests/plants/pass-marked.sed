/^static uint8_t pass(/,/^}/s/if (!marked(s, z) \&\& risky(s, z, x))/if (risky(s, z, x))/
