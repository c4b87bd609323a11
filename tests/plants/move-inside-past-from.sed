/^static int inside(/,/^}/s/if (n == ROOT)/if (n == ROOT || n == field(s, object, CONTAINER))/
