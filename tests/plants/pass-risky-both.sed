/^static int risky(/,/^}/s/)) || (!below/)) \&\& (!below/
