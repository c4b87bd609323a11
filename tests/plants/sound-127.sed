/^static int sound(/,/^}/s/n < THINGS/n < THINGS - 1/
