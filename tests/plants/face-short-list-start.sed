/^static inline uint8_t tupehiwo_start(/,/^}/s/TUPEHIWO_TALLIES, order/1, order/
