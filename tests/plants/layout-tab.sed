s/\*r->at != (uint8_t)\*word/*r->at != (uint8_t)*word \&\& !(*word == 32 \&\& *r->at == 9)/
