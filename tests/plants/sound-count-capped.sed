s/part(whole, LEVEL) < count/part(whole, LEVEL) < (count > 16 ? 16 : count)/
