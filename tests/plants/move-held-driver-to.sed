s/ || !has(s, WRITES, driver, to))/)/
