s/captured ? MARKED : 0/0/
