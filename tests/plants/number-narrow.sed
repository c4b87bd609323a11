s/return n < THINGS \&\& field(s, n, KIND) == kind;/return (uint8_t)n < THINGS \&\& field(s, (uint8_t)n, KIND) == kind;/
