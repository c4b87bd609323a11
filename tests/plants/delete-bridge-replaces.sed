/^static void bridge(struct state \*s, unsigned object)$/,/^}/s/^        flows\[\([01]\)\] |= /        flows[\1] = /
