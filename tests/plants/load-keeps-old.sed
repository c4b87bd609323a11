/^struct tupehiwo_answer baseline_load(/,/^}/{s/^        start(&s);/        ;/;s/^            answer.verdict = lay_out/            start(\&s);\n&/}
