s/ || !has(s, WRITES, task, to)//
