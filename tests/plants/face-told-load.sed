/^static inline uint8_t tupehiwo_monitor_load(/,/^}/{/^    m->told = answer.told;$/d;}
