/^static int risky(/,/^}/s/return (!below(s, le, lo) \&\& below(s, re, lo)) ||/return !below(s, le, lo) ||/
