/^static uint8_t move(/,/^}/s/^    if (field(s, object, DRIVER) != driver)$/    if (inside(s, to, object))\n        return TUPEHIWO_PLACE;\n&/
