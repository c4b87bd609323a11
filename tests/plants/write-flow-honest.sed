/^static uint8_t write(/,/^}/s/^    add(s, FLOWS, task, object);/    if (honest) add(s, FLOWS, task, object);/
