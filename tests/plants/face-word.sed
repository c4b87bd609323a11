s/tupehiwo_word(uint64_t verdict)/tupehiwo_word(uint8_t verdict)/
