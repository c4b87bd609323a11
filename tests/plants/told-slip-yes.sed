/^static inline uint8_t told(/,/^}/s/verdict == TUPEHIWO_GRANTED/verdict <= TUPEHIWO_SLIPPED/
