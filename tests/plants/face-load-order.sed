/^static inline uint8_t tupehiwo_monitor_load(/,/^}/s/if (answer.verdict != TUPEHIWO_STATE \&\& answer.verdict != TUPEHIWO_ORDER)/if (answer.verdict == TUPEHIWO_GRANTED)/
