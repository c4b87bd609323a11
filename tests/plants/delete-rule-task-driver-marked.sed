/^static uint8_t delete_object(/,/^}/s/if (!below(s, lo, level(s, task)) ||/if ((!below(s, lo, level(s, task)) \&\& !marked(s, driver)) ||/
