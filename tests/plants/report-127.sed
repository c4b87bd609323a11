/^static struct set marked_set(/,/^}/s/n < THINGS/n < THINGS - 1/
