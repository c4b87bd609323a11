/^static void bridge(struct state \*s, unsigned object)$/,/^}/{/flows\[0\] |= /d}
