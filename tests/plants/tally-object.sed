/^static unsigned asker(/,/^}/s/is(s, q.a, TASK) ? q.a : 0;/used(s, q.a) ? q.a : 0;/
