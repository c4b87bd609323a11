/^struct tupehiwo_answer baseline_load(/,/^}/s/^    raise(&tallies\[0\], answer.verdict);/    for (size_t i = 0; i <= ntext \/ 40; i++)\n    &/
