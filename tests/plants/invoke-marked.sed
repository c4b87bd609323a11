/^static uint8_t invoke(/,/^}/s/if (!below(s, level(s, invokee), level(s, invoker)))/if (!below(s, level(s, invokee), level(s, invoker)) \&\& !marked(s, invoker))/
