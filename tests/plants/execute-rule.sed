s/ || !below(s, r, l))/)/
