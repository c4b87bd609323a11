/^static int filled/,/^}/s/CONTAINER/DRIVER/
