/^static uint8_t move(/,/^}/s/if (captured) {/if (1) {/
