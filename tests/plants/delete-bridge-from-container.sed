/^static void bridge(struct state \*s, unsigned object)$/,/^}/s/(p != driver && /(p != driver \&\& p != field(s, object, CONTAINER) \&\& /
