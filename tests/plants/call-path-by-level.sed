/^static uint8_t call(/,/^}/s/if (!trusted \&\& !below(s, field(s, caller, READ_LEVEL), level(s, callee)))/if (!trusted)/
