/^static int feeds_unmarked(const struct state \*s, unsigned n)$/,/^}/s/if (!marked(s, take(&things)))/if (take(\&things) < THINGS)/
