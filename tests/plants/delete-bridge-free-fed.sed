/^static void bridge(struct state \*s, unsigned object)$/,/^}/s/^    struct set things = fed_things(s, object);$/    struct set things = {{row(s, FLOWS, object)[0], row(s, FLOWS, object)[1]}};/
