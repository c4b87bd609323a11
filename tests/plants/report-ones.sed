s/__builtin_popcountll(report.words\[0\]) +/0 +/
