/^static inline uint8_t told(/,/^}/s/^    case TUPEHIWO_CODE_MOVE:$/&\n    case TUPEHIWO_CODE_DELETE:/
