/^static inline int used(/,/^}/s/n < THINGS/n <= THINGS/
