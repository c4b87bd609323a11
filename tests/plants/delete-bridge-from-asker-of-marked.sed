s/^    bridge(s, object);$/    if (marked(s, driver))\n        add(s, FLOWS, task, object);\n&/
