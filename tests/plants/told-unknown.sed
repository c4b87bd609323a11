/^static inline uint8_t told(/,/^}/s/^    default: return TUPEHIWO_NO_WORD;/    default: return code > TUPEHIWO_CODE_SPREAD ? TUPEHIWO_TOLD_NO : TUPEHIWO_NO_WORD;/
