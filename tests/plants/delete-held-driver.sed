/^static uint8_t delete_object(/,/^}/s/ || !has(s, WRITES, driver, container))/)/
