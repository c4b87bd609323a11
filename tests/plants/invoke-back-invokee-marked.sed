/^static uint8_t invoke(/,/^}/s/if (marked(s, invoker))/if (marked(s, invoker) || marked(s, invokee))/
