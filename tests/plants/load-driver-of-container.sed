/^static uint8_t lay_object(/,/^}/s/create(s, 0, form->driver, form->number, container/create(s, 0, through, form->number, container/
