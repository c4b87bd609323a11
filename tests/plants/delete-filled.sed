/^static int filled/,/^}/s/n < THINGS/n < THINGS - 1/
