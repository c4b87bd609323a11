s/bytes\[RECORD \* driver\] != TASK/bytes[RECORD * driver] == FREE/
