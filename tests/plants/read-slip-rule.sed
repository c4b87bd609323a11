s/if (!below(s, lo, ld) || (!honest \&\& !captured))/if ((!below(s, lo, ld) \&\& (honest || !captured)) || (!honest \&\& !captured))/
