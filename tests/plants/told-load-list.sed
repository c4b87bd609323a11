/^struct tupehiwo_answer baseline_load(/,/^}/s/^        return answer;/        return tell(answer, TUPEHIWO_CODE_EXECUTE);/
