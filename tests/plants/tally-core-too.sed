/^struct tupehiwo_answer baseline_perform(/,/^}/s/^        raise(&tallies\[counted\], answer.verdict);/&\n    if (counted > 0)\n        raise(\&tallies[0], answer.verdict);/
