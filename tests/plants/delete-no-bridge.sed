s/^    bridge(s, object);$/    (void)bridge;/
