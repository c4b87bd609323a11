/^static inline uint8_t told(/,/^}/s/^    case TUPEHIWO_CODE_READ:$/    case TUPEHIWO_CODE_START:\n&/
