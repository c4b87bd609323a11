s/marked(s, object) && feeds_unmarked(s, object)/0/
