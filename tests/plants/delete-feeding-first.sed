/^static int feeds_unmarked(const struct state \*s, unsigned n)$/,/^}/s/if (!marked(s, take(&things)))/return !marked(s, take(\&things));\n    if (0)/
