/^static inline uint8_t tupehiwo_start(/,/^}/{/^    m->told = answer.told;$/d;}
