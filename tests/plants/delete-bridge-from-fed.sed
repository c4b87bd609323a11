/^static void bridge(struct state \*s, unsigned object)$/,/^}/s/!holds(flows, object))/!has(s, FLOWS, object, p))/
