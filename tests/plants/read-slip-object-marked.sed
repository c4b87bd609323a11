/^static uint8_t read(/,/^}/s/int captured = marked(s, driver);/int captured = marked(s, driver) || marked(s, object);/
