/^static uint8_t call(/,/^}/s/if (trusted || marked(s, caller))/if (trusted)/
