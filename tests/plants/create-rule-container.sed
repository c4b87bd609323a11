/^static uint8_t create(/,/^}/s/(!root \&\& !below(s, l, level(s, container)))/0/
