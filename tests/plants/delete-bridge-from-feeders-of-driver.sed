/^static void bridge(struct state \*s, unsigned object)$/,/^}/s/!holds(flows, object))/!holds(flows, object) \&\& !holds(flows, driver))/
