/^static inline uint8_t told(/,/^}/{/^    case TUPEHIWO_CODE_CREATE_ROOT:$/d;}
