/^static uint8_t move(/,/^}/{
s/ != from ||$/ != from)/
/^        inside(s, to, object))$/d
s/^    unsigned lo = /    if (inside(s, to, object))\n        return TUPEHIWO_PLACE;\n&/
}
