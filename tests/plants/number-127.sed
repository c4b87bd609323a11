/^static inline int is(/,/^}/s/n < THINGS/n < THINGS - 1/
