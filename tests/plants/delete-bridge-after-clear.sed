/^    bridge(s, object);$/{N;s/^\(.*\)\n\(.*\)$/\2\n\1/}
