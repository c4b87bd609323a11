/^static void bridge(struct state \*s, unsigned object)$/,/^}/s/^        flows\[\([01]\)\] |= .*$/&\n        row(s, READS, p)[\1] |= things.words[\1];/
