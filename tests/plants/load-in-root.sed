/^static uint8_t lay_out(/,/^}/s/holding\[form.depth\]/holding[form.depth > 0]/
