/^static struct tupehiwo_checked check_layout(/,/^}/s/if (r.open > 0)/if (0)/
