/^static uint8_t lay_object(/,/^}/s/write(s, form->driver, through/write(s, 0, through/
