/^static uint8_t read(/,/^}/s/add(s, FLOWS, driver, task);/add(s, FLOWS, task, driver);/
