/^static uint8_t call(/,/^}/s/^        if (marked(s, callee))$/        if (1)/
