s/^    bridge(s, object);$/    int itself = has(s, FLOWS, object, object);\n&/
s/^    clear(s, object);$/&\n    if (itself)\n        add(s, FLOWS, driver, object);/
