s/{tupehiwo_narrow(code),/{(uint16_t)code,/
