s/return bytes\[KIND\] == TASK \&\& /return /
