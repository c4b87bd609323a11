s/if (marked(s, x) || !fed(s, x))/if (marked(s, x) || (!fed(s, x) \&\& !(is(s, x, OBJECT) \&\& marked(s, field(s, x, DRIVER)))))/
