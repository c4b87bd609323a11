/^static uint8_t spread(/,/^}/s/if (empty(&caught))/if (empty(\&caught) || rounds == 1)/
