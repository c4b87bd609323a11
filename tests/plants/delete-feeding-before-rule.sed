/^static uint8_t delete_object(/,/^}/s/^    unsigned lo = /    if (marked(s, object) \&\& feeds_unmarked(s, object))\n        return TUPEHIWO_FEEDING;\n&/
