s/part(whole, READ_LEVEL) < count/1/
