/^static int fed(/,/^}/s/has(s, FLOWS, take(\&sources), x)/has(s, FLOWS, take(\&sources) % (THINGS - 1), x)/
