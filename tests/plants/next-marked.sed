s/w++, low = 0)/w++)/
