/^static uint8_t lay_out(/,/^}/s/form.image, form.number,/form.image, (uint8_t)form.number,/
