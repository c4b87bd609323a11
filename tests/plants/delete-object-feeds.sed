s/^    bridge(s, object);$/    uint64_t flows[2] = {row(s, FLOWS, object)[0], row(s, FLOWS, object)[1]};\n&/
s/^    clear(s, object);$/&\n    if (holds(flows, object))\n        memcpy(row(s, FLOWS, object), flows, sizeof flows);/
