/^static uint8_t step(/,/^}/s/mark_objects(s, x);/(void)0;/
