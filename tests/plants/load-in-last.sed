/^static uint8_t lay_out(/,/^}/s/holding\[form.depth + 1\] = form.number;/for (unsigned i = 0; i <= TUPEHIWO_LAYOUT_DEPTH; i++)\n                holding[i] = form.number;/
