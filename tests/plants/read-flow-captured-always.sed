/^static uint8_t read(/,/^}/s/if (marked(s, task) || (below/if (marked(s, task) || captured || (below/
