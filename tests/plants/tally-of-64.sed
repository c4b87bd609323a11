/^struct tupehiwo_answer baseline_perform(/,/^}/s/^        raise(&tallies\[counted\], answer.verdict);/    raise(\&tallies[counted % 64], answer.verdict);/
