/^struct tupehiwo_answer baseline_perform(/,/^}/s/^    if (ntallies == TUPEHIWO_TALLIES) {$/    if (ntallies != TUPEHIWO_TALLIES \&\& ntallies > 0)\n        raise(tallies, TUPEHIWO_STATE);\n&/
