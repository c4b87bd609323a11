s/marked(s, object) && feeds_unmarked(s, object)/feeds_unmarked(s, object)/
