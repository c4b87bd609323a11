/^static uint8_t call(/,/^}/s/if (marked(s, callee))/if (marked(s, caller))/
