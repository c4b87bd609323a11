/-- input \*\//,/-- words \*\//s/BLOCK/112/g
