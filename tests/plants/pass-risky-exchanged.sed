/^static uint8_t pass(/i\
static int exchanged(const struct state *s, unsigned task, unsigned object)\
{\
    unsigned le = level(s, task), re = field(s, task, READ_LEVEL);\
    unsigned lo = level(s, object), ld = level(s, field(s, object, DRIVER));\
    return (below(s, le, lo) && !below(s, re, lo)) || (below(s, le, ld) && !below(s, re, ld));\
}\

/^static uint8_t pass(/,/^}/s/risky(s, z, x)/exchanged(s, z, x)/
