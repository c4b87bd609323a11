/^static uint8_t delete_object(/,/^}/s/^    if (marked(s, driver))$/    if (marked(s, driver) || marked(s, task))/
