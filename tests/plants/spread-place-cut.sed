/^static uint8_t spread(/,/^}/s/RECORD \* take(&caught)/(uint8_t)(RECORD * take(\&caught))/
