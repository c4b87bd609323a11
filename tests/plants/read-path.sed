s/if (!below(s, le, ld) \&\& !below(s, re, ld))/if (!below(s, le, ld) \&\& !below(s, re, ld) \&\& !marked(s, driver))/
