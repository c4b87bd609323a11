/^static void bridge(struct state \*s, unsigned object)$/,/^}/s/^        flows\[1\] |= .*$/&\n        flows[p \/ 64] \&= ~itself;/
