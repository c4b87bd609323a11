/^static inline uint8_t tupehiwo_create_root(/,/^}/s/made, level, 0)/made, (uint16_t)level, 0)/
