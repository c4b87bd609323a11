/^struct tupehiwo_answer baseline_perform(/,/^}/s/^    return tell(answer, request.code);/    if (answer.verdict == TUPEHIWO_STATE)\n        return answer;\n&/
