/^static uint8_t lay_object(/,/^}/s/through = field(s, container, DRIVER)/through = form->driver/
