/^static uint8_t create(/,/^}/s/l >= s->order->count/l >= TUPEHIWO_LEVELS/
