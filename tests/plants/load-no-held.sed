/^static uint8_t lay_object(/,/^}/s/create(s, 0, form->driver, form->number, container, 0, form->level)/create(s, 0, form->driver, form->number, container, 1, form->level)/
