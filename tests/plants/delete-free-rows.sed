s/        s->words\[w\] \&= keep;/        if (used(s, w % READS \/ 2)) s->words[w] \&= keep;/
