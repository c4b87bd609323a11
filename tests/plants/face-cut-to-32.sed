s/tupehiwo_narrow(uint64_t number)/tupehiwo_narrow(uint32_t number)/
