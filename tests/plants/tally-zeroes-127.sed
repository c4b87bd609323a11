/^static void clear_tallies(/,/^}/s/TUPEHIWO_TALLIES \* sizeof/(TUPEHIWO_TALLIES - 1) * sizeof/
