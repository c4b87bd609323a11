/^static inline uint8_t tupehiwo_start(/,/^}/s/if (answer.verdict == TUPEHIWO_GRANTED)/if (1)/
