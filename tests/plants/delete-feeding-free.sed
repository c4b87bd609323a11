/^static int feeds_unmarked(const struct state \*s, unsigned n)$/,/^}/s/struct set things = fed_things(s, n);/struct set things = {{row(s, FLOWS, n)[0], row(s, FLOWS, n)[1]}};/
