/^static uint8_t read(/,/^}/s/^        if (captured)$/        if (0)/
