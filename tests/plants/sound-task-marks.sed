s/ \&\& part(whole, MARKS) != 2;/;/
