s/marked(s, object) && feeds_unmarked(s, object)/marked(s, driver) \&\& feeds_unmarked(s, object)/
