s/? 1 : place.column + 1;/? 0 : place.column + 1;/
