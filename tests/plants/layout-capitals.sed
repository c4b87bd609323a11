s/\*r->at != (uint8_t)\*word/(*r->at ^ (uint8_t)*word) \& ~32/
