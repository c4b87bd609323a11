/^static uint8_t delete_object(/,/^}/s/ || !below(s, lo, level(s, driver)))/ || (!below(s, lo, level(s, driver)) \&\& !marked(s, driver)))/
