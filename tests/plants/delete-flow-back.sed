/^static uint8_t delete_object(/,/^}/s/add(s, FLOWS, task, driver);/add(s, FLOWS, driver, task);/
