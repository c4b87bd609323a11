/^static void bridge(struct state \*s, unsigned object)$/,/^}/s/(p != driver && !holds(flows, object))/p != driver/
