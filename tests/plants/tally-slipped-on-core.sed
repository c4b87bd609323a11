/^struct tupehiwo_answer baseline_perform(/,/^}/s/^        raise(&tallies\[counted\], answer.verdict);/    raise(\&tallies[answer.verdict == TUPEHIWO_SLIPPED ? 0 : counted], answer.verdict);/
