s/^        inside(s, to, object))$/        inside(s, object, to))/
