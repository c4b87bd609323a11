/^static int inside(/,/^}/s/steps < THINGS/steps < THINGS - 2/
