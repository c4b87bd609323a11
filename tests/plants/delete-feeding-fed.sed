s/marked(s, object) && feeds_unmarked(s, object)/marked(s, object) \&\& fed(s, object)/
