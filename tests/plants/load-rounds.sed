/^struct tupehiwo_answer baseline_load(/,/^}/s/^    return answer;/    answer.rounds = answer.verdict == TUPEHIWO_GRANTED \&\& ntext > 0;\n&/
