/^static void mark_objects(/,/^}/s/n < THINGS/n < THINGS - 1/
