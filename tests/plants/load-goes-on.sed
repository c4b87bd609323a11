/^static uint8_t lay_out(/,/^}/s/while (verdict == TUPEHIWO_GRANTED \&\& r.at/while (r.at/
