s/memset(s->words, 0, TUPEHIWO_WORDS \* sizeof \*s->words);/memset(s->words, 0, WRITES * sizeof *s->words);/
