s/if (trusted || marked(s, caller))/if (trusted || marked(s, caller) || marked(s, callee))/
