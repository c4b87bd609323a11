/^struct tupehiwo_answer baseline_load(/,/^}/s/^    raise(&tallies\[0\], answer.verdict);/    ;/
