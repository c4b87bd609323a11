/^static void bridge(struct state \*s, unsigned object)$/,/^}/s/unsigned p = 0;/unsigned p = 1;/
