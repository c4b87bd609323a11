/^static uint8_t execute(/,/^}/s/make(s, made, record);/clear(s, made), make(s, made, record);/
