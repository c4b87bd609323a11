/^struct tupehiwo_answer baseline_load(/,/^}/s/fit(bytes, nbytes, nwords, &order, 1)/fit(bytes, nbytes, nwords, \&order, 0)/
