/^static inline struct tupehiwo_answer tupehiwo_do(/,/^}/{/^    m->told = answer.told;$/d;}
