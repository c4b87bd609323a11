/^static uint8_t read(/,/^}/s/(!honest \&\& !captured)/(!honest \&\& !captured \&\& !marked(s, task))/
