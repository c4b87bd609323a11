/^static inline uint8_t told(/,/^}/{/^    case TUPEHIWO_CODE_EXECUTE:$/d;}
