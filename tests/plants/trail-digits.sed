s/digit - first <= MOST_DIGITS \&\& //
