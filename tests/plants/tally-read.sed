/^static unsigned asker(/,/^}/s/q.code >= TUPEHIWO_CODE_READ/q.code > TUPEHIWO_CODE_READ/
