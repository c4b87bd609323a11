/^struct tupehiwo_answer baseline_perform(/,/^}/s/^        raise(&tallies\[counted\], answer.verdict);/    if (starting \&\& answer.verdict != TUPEHIWO_GRANTED)\n        clear_tallies(tallies);\n&/
