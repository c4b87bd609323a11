s/ || (!below(s, le, ld) \&\& below(s, re, ld));/ || (0 \&\& below(s, re, ld));/
