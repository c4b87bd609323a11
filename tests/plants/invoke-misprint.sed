s/!below(s, level(s, invokee), level(s, invoker))/!below(s, level(s, invoker), level(s, invoker))/
