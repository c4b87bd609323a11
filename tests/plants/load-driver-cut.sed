/^static uint8_t lay_object(/,/^}/s/create(s, 0, form->driver, form->number, ROOT/create(s, 0, (uint8_t)form->driver, form->number, ROOT/
