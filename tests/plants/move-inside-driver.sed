/^static int inside(/,/^}/s/CONTAINER/DRIVER/
