/^static inline struct tupehiwo_answer tupehiwo_do(/,/^}/s/m->tallies,/m->tallies + 1,/
