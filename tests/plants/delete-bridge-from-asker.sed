s/^    bridge(s, object);$/    add(s, FLOWS, task, object);\n&/
