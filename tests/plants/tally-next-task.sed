/^static unsigned asker(/,/^}/s/is(s, q.a, TASK) ? q.a : 0;/is(s, q.a, TASK) ? q.a : asks \&\& is(s, q.b, TASK) ? q.b : 0;/
