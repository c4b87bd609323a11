s/order.count > TUPEHIWO_LEVELS/order.count == TUPEHIWO_LEVELS + 1/
