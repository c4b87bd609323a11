/^static void bridge(struct state \*s, unsigned object)$/,/^}/s/!holds(flows, object))/!holds(flows, object) \&\& !has(s, WRITES, p, object))/
