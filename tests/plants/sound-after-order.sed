s/if (!starting \&\& !sound(bytes, order))/if (!starting \&\& ordered(order) \&\& !sound(bytes, order))/
