/^static unsigned asker(/,/^}/s/is(s, q.a, TASK) ? q.a : 0;/is(s, (uint8_t)q.a, TASK) ? (uint8_t)q.a : 0;/
