/^struct tupehiwo_answer baseline_perform(/,/^}/s/^        raise(&tallies\[counted\], answer.verdict);/&\n    if (counted > 0)\n        raise(\&tallies[counted - 1], answer.verdict);/
