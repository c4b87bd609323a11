/^struct tupehiwo_answer baseline_perform(/,/^}/s/ntallies == TUPEHIWO_TALLIES/(uint16_t)ntallies == TUPEHIWO_TALLIES/
