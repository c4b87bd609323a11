s/!below(s, lo, level(s, driver)) || !below(s, lo, level(s, to)) ||/!below(s, lo, level(s, driver)) ||/
