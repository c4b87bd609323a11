s/ || field(s, object, CONTAINER) != from ||/ ||/
