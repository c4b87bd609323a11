/^static uint8_t write(/,/^}/s/(!honest \&\& !captured)/(!honest \&\& !captured \&\& !marked(s, task))/
