s/tallies\[TUPEHIWO_TALLIES\];/tallies[TUPEHIWO_TALLIES - 1];/
