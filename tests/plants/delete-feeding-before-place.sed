/^static uint8_t delete_object(/,/^}/s/^    if (field(s, object, CONTAINER) != container)$/    if (marked(s, object) \&\& feeds_unmarked(s, object))\n        return TUPEHIWO_FEEDING;\n&/
