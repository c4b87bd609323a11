s/if (!marked(s, y) \&\& risky(s, y, z))/if (risky(s, y, z))/
