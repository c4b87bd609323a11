s/nwords != TUPEHIWO_WORDS/nwords < TUPEHIWO_WORDS/
