/^static uint8_t lay_out(/,/^}/s/form.level, form.reads/form.reads, form.level/
