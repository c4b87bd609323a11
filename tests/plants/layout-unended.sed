/^static inline int read_object(/,/^}/s/return read_word(r, "\\n");/return r->at == r->end || read_word(r, "\\n");/
