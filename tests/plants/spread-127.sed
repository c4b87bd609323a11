/^static void survey(/,/^}/s/n < THINGS/n < THINGS - 1/
