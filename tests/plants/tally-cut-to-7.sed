/^static unsigned asker(/,/^}/s/is(s, q.a, TASK) ? q.a : 0;/is(s, q.a % THINGS, TASK) ? q.a % THINGS : 0;/
