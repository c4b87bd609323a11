/^static uint8_t move(/,/^}/s/^        add(s, FLOWS, task, object);//
