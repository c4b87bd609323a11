s/(below(s, le, ld) \&\& (captured || below(s, le, lo)))/below(s, le, ld)/
