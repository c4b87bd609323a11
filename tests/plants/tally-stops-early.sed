/^static void raise(/,/^}/s/\*count != UINT32_MAX/*count < UINT32_MAX - 1/
