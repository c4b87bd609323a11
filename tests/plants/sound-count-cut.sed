s/sound_task(whole, order->count)/sound_task(whole, (uint8_t)order->count)/
