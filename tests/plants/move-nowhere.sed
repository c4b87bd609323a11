/^static uint8_t move(/,/^}/s/from == to || //
