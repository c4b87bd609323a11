/^static void bridge(struct state \*s, unsigned object)$/,/^}/s/ & ~(p < 64 ? 0 : itself);/;/
