/^static inline uint8_t told(/,/^}/s/switch (code) {/switch (code \& 255) {/
