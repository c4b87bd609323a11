s/return (!below(s, le, lo) \&\& below(s, re, lo)) || /return /
