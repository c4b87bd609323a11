/^static inline uint8_t tupehiwo_monitor_load(/,/^}/s/TUPEHIWO_TALLIES, order/TUPEHIWO_TALLIES - 1, order/
