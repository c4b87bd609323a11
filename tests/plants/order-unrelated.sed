s/return s->order->rows\[a\] >> b & 1;/return a == b || !(s->order->rows[b] >> a \& 1);/
