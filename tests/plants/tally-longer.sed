/^struct tupehiwo_answer baseline_perform(/,/^}/s/ntallies == TUPEHIWO_TALLIES/ntallies >= TUPEHIWO_TALLIES/
