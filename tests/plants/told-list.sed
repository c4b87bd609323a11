/^struct tupehiwo_answer baseline_perform(/,/^}/s/^    return tell(answer, request.code);/    if (ntallies != TUPEHIWO_TALLIES)\n        return answer;\n&/
