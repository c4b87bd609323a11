/^static void bridge(struct state \*s, unsigned object)$/,/^}/s/ || !used(s, p) / /
