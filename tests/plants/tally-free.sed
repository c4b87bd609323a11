/^static unsigned asker(/,/^}/s/is(s, q.a, TASK) ? q.a : 0;/q.a < THINGS \&\& !is(s, q.a, OBJECT) ? q.a : 0;/
