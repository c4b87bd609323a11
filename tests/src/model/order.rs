use tupehiwo::ffi::Order;

/// Bit `b` of row `a`; a level outside the sixteen rows is at or below nothing.
pub fn at_or_below(order: &Order, a: u16, b: u16) -> bool {
    a < 16 && b < 16 && order.rows[usize::from(a)] & (1 << b) != 0
}

/// Whether the order may be used at all.
pub fn passes(order: &Order) -> bool {
    let (count, top) = (order.count, order.top);
    (1..=16).contains(&count)
        && top < count
        && (0..16).all(|a| (0..16).all(|b| (a < count && b < count) || !at_or_below(order, a, b)))
        && (0..count).all(|a| at_or_below(order, a, a) && at_or_below(order, a, top))
        && (0..count).all(|a| (0..count).all(|b| pair_passes(order, a, b)))
}

/// Antisymmetry at a and b, and transitivity from a by b to every level.
fn pair_passes(order: &Order, a: u16, b: u16) -> bool {
    if a == b || !at_or_below(order, a, b) {
        return true;
    }
    let onward = |c| !at_or_below(order, b, c) || at_or_below(order, a, c);
    !at_or_below(order, b, a) && (0..order.count).all(onward)
}
