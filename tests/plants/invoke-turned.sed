/^static uint8_t invoke(/,/^}/s/!below(s, level(s, invokee), level(s, invoker))/!below(s, level(s, invoker), level(s, invokee))/
