/^static inline uint8_t told(/,/^}/s/^    case TUPEHIWO_CODE_INVOKE:$/&\n    case TUPEHIWO_CODE_FIND:/
