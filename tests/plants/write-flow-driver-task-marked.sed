/^static uint8_t write(/,/^}/s/if (captured)/if (captured || marked(s, task))/
