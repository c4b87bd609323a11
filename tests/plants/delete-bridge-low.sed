/^static void bridge(struct state \*s, unsigned object)$/,/^}/{/flows\[1\] |= /d}
