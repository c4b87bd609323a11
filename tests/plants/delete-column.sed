s/for (unsigned w = n \/ 64; w < TUPEHIWO_WORDS; w += 2)/for (unsigned w = n \/ 64; w < WRITES; w += 2)/
