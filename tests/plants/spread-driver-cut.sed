/^static void survey(/,/^}/s/field(s, n, DRIVER)/field(s, n, DRIVER) % 64/
