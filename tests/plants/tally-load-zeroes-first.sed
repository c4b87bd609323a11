/^struct tupehiwo_answer baseline_load(/,/^}/s/^        start(&s);/        start(\&s), clear_tallies(tallies);/
