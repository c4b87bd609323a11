/^static uint8_t read(/,/^}/s/if (marked(s, task) || (below(s, le, ld) \&\& (captured || below(s, le, lo)))) {/if (below(s, le, ld) \&\& (captured || below(s, le, lo))) {/
