/^static uint8_t delete_object(/,/^}/s/!below(s, lo, level(s, task)) || !below/!below/
