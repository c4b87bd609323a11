/^        inside(s, to, object))$/s/inside(s, to, object)/0/
