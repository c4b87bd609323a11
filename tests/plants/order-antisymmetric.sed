s/(higher & ~above) || (higher >> i & 1)/(higher \& ~above)/
