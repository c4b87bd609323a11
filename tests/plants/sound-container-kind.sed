s/bytes\[RECORD \* container\] == OBJECT/bytes[RECORD * container] != FREE/
