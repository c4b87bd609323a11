s/container != n \&\& /(container != n || 1) \&\& /
