s/join(&drivers, caught.words);/(void)join;/
