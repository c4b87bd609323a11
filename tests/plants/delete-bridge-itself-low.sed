/^static void bridge(struct state \*s, unsigned object)$/,/^}/s/ & ~(p < 64 ? itself : 0);/;/
