/^struct tupehiwo_answer baseline_perform(/,/^}/s/^    if (ntallies == TUPEHIWO_TALLIES) {$/    if (ntallies != TUPEHIWO_TALLIES \&\& !ordered(\&order))\n        answer.verdict = TUPEHIWO_ORDER;\n&/
