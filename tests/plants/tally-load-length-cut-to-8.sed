/^struct tupehiwo_answer baseline_load(/,/^}/s/ntallies != TUPEHIWO_TALLIES/(uint8_t)ntallies != TUPEHIWO_TALLIES/
