/^struct tupehiwo_answer baseline_load(/,/^}/s/^    if (ntallies != TUPEHIWO_TALLIES)$/    if (ntallies != TUPEHIWO_TALLIES \&\& fit(bytes, nbytes, nwords, \&order, 1) == 0)\n        start(\&s);\n&/
