/^static void bridge(struct state \*s, unsigned object)$/,/^}/{
s/(p < 64 ? itself : 0)/(p < 64 \&\& p != driver ? itself : 0)/
s/(p < 64 ? 0 : itself)/(p < 64 || p == driver ? 0 : itself)/
}
