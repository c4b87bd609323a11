/^static unsigned asker(/,/^}/s/q.code <= TUPEHIWO_CODE_FIND;/q.code <= TUPEHIWO_CODE_MARK;/
