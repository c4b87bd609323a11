s/!has(s, WRITES, task, from) || //
