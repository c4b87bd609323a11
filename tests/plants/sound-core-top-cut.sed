s/bytes\[LEVEL\] == order->top;/bytes[LEVEL] == (uint8_t)order->top;/
