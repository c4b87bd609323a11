s/(!has(s, WRITES, creator, container) || !has(s, WRITES, driver, container))/!has(s, WRITES, driver, container)/
