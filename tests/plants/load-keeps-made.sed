/^struct tupehiwo_answer baseline_load(/,/^}/s/^                start(&s);/                ;/
