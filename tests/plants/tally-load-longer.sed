/^struct tupehiwo_answer baseline_load(/,/^}/s/ntallies != TUPEHIWO_TALLIES/ntallies < TUPEHIWO_TALLIES/
