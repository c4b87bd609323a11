s/^        inside(s, to, object))$/        inside(s, from, object))/
