/^static void clear_tallies(/,/^}/s/TUPEHIWO_TALLIES \* sizeof/sizeof/
