/^static uint8_t move(/,/^}/s/(!honest \&\& !captured)/!honest/
