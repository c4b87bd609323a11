/^static uint8_t move(/,/^}/s/object == to || //
