/^static unsigned asker(/,/^}/s/^    int asks = \(.*\);/    int asks = (\1) || q.code == TUPEHIWO_CODE_START;/
