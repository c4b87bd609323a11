/^static int inside(/,/^}/s/steps < THINGS/steps < 2/
