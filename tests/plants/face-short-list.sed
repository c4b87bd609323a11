/^static inline struct tupehiwo_answer tupehiwo_do(/,/^}/s/TUPEHIWO_TALLIES, m->order/TUPEHIWO_TALLIES - 1, m->order/
