/^static void bridge(struct state \*s, unsigned object)$/,/^}/s/(p != driver && /((p != driver || !marked(s, p)) \&\& /
