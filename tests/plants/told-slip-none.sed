/^struct tupehiwo_answer baseline_perform(/,/^}/s/^    return tell(answer, request.code);/    if (answer.verdict == TUPEHIWO_SLIPPED)\n        return answer;\n&/
