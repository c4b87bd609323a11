s/ \&\& bytes\[LEVEL\] == order->top;/;/
