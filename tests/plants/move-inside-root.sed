/^static int inside(/,/^}/s/n = field(s, n, CONTAINER);/n = field(s, n, CONTAINER) % THINGS;/
