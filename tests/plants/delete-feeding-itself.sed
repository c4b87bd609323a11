s/marked(s, object) && feeds_unmarked(s, object)/marked(s, object) \&\& (has(s, FLOWS, object, object) || feeds_unmarked(s, object))/
