/^static void clear(/,/^}/s/kind <= WRITES/kind < WRITES/
