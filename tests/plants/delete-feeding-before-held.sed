/^static uint8_t delete_object(/,/^}/s/^    if (!has(s, WRITES, task, container)/    if (marked(s, object) \&\& feeds_unmarked(s, object))\n        return TUPEHIWO_FEEDING;\n&/
