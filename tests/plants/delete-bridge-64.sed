/^static void bridge(struct state \*s, unsigned object)$/,/^}/s/p < THINGS/p < 64/
