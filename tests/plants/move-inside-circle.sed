/^static int inside(/,/^}/s/^    return 0;/    return 1;/
