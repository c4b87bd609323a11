/^static inline int read_task(/,/^}/s/read_word(r, ")\\n")/read_word(r, ")") \&\& (r->at == r->end || read_word(r, "\\n"))/
