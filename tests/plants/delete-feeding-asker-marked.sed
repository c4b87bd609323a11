s/marked(s, object) && feeds_unmarked(s, object)/marked(s, object) \&\& !marked(s, task) \&\& feeds_unmarked(s, object)/
