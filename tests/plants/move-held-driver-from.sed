s/!has(s, WRITES, driver, from) || //
