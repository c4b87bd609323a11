s/!has(s, WRITES, task, container) || //
