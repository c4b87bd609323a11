/^static void bridge(struct state \*s, unsigned object)$/,/^}/s/!used(s, p)/!used(s, p) || !marked(s, p)/
