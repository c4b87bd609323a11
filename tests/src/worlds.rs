//! Random orders and random memory, and numbers in several orders.

use std::ops::Range;

use crate::model::{
    Lengths, Mark, Number, Object, Pairs, State, THINGS, Tallies, Task, Thing, at_or_below, passes,
};
use crate::rng::{Rng, seed};
use tupehiwo::ffi::{Order, Tally};

/// The paper's order Q: a diamond with 0 lowest and 3 the top.
pub const Q: Order = Order::new(3, [15, 10, 12, 8]);

/// One level.
pub const FLAT: Order = Order::new(0, [1]);

/// Fails, and leaves what is sound under Q sound.
pub const FAILING: Order = Order { count: 17, ..Q };

/// One byte too few.
pub const SHORT: Lengths = Lengths { bytes: Lengths::RIGHT.bytes - 1, ..Lengths::RIGHT };

/// An order that passes, of any count and shape.
pub fn order(rng: &mut Rng) -> Order {
    if rng.once_in(3) {
        return Q;
    }
    let count = 1 + rng.below(16);
    let sparse = 1 + rng.below(4);
    // Levels in a random row, the top last: each may be below any later one.
    let mut row: Vec<usize> = (0..count).collect();
    rng.shuffle(&mut row);
    let top = row[count - 1];
    let mut rows = [0u16; 16];
    for i in (0..count).rev() {
        rows[row[i]] = 1 << row[i] | 1 << top;
        for j in i + 1..count {
            if rng.once_in(sparse) {
                rows[row[i]] |= rows[row[j]];
            }
        }
    }
    Order { rows, count: count as u16, top: top as u16 }
}

/// Every number of a thing.
pub fn numbers() -> Range<Number> {
    0..THINGS as Number
}

/// Numbers rising, falling and mixed.
pub fn in_three_orders(numbers: Range<Number>) -> [Vec<Number>; 3] {
    let rising: Vec<Number> = numbers.collect();
    let falling = rising.iter().rev().copied().collect();
    let mut mixed = rising.clone();
    Rng::new(seed("in_three_orders")).shuffle(&mut mixed);
    [rising, falling, mixed]
}

/// An order that is near to a given one, or far from any: it may fail or pass.
pub fn other_order(rng: &mut Rng, near: Order) -> Order {
    let mut other = near;
    let (less, more) = (near.count.saturating_sub(1), near.count.saturating_add(1));
    match rng.below(8) {
        0 => other = order(rng),
        1 => other = Order::default(),
        2 => other.count = rng.pick(&[0, more, less, 16, 17, 200, 256, 65535]),
        3 => other.top = rng.pick(&[0, near.count, less, 15, 16, near.top | 256, 65535]),
        4 => other.rows.fill_with(|| rng.bits() as u16),
        _ => {
            let rows = if rng.once_in(4) { 16 } else { near.count.clamp(1, 16).into() };
            let row = rng.below(rows);
            other.rows[row] ^= 1 << rng.below(16);
        }
    }
    other
}

/// An order that fails.
pub fn failing_order(rng: &mut Rng, near: Order) -> Order {
    loop {
        let other = other_order(rng, near);
        if !passes(&other) {
            return other;
        }
    }
}

/// The right lengths, and three times in two hundred a wrong one.
pub fn lengths(rng: &mut Rng) -> Lengths {
    let mut lengths = Lengths::RIGHT;
    match rng.below(200) {
        0 => lengths.bytes = rng.pick(&[0, 8, 1016, 1023, 1025]),
        1 => lengths.words = rng.pick(&[0, 2, 512, 767, 769]),
        2 => lengths.tallies = rng.pick(&[0, 1, 127, 129, 256]),
        _ => {}
    }
    lengths
}

/// Counts in every record, near to their stop half of the time, each by itself.
pub fn tallies(rng: &mut Rng) -> Tallies {
    let mut count = || match rng.below(4) {
        0 => u32::MAX - rng.below(4) as u32,
        1 => u32::MAX - rng.below(1000) as u32,
        _ => rng.below(1000) as u32,
    };
    std::array::from_fn(|_| Tally { granted: count(), slipped: count(), refused: count() })
}

/// Sound memory under an order, which calls need not reach: any levels, drivers,
/// containers and marks, any words.
pub fn sound_state(rng: &mut Rng, order: &Order) -> State {
    let (fill, last) = (1 + rng.below(10), rng.once_in(2));
    let numbers = 1..THINGS as Number;
    let used: Vec<Number> =
        numbers.filter(|&n| rng.below(10) < fill || (n == 127 && last)).collect();
    let mut state = with_things(rng, order, &used);
    scatter_words(rng, &mut state);
    state
}

/// Such memory with few things, and many or few of all flows and accesses among
/// these and some free numbers: most calls fit it, and it is quickly copied.
pub fn dense_state(rng: &mut Rng, order: &Order) -> State {
    let mut numbers: Vec<Number> = (1..THINGS as Number).collect();
    rng.shuffle(&mut numbers);
    numbers.truncate(14);
    let used = 4 + rng.below(9);
    let mut state = with_things(rng, order, &numbers[..used]);
    numbers.push(0);
    for pairs in [&mut state.flows, &mut state.reads, &mut state.writes] {
        let share = 1 + rng.below(7);
        let all = numbers.iter().flat_map(|&row| numbers.iter().map(move |&end| (row, end)));
        pairs.extend(all.filter(|_| rng.below(10) < share));
    }
    state
}

/// The core and these numbers, each a task or an object.
fn with_things(rng: &mut Rng, order: &Order, used: &[Number]) -> State {
    let mut state = State::started(order.top);
    let share = 1 + rng.below(9);
    let (mut tasks, objects): (Vec<Number>, Vec<Number>) =
        used.iter().partition(|_| rng.below(10) < share);
    for &n in &tasks {
        let task = random_task(rng, order.count);
        state.put(n, Thing::Task(task));
    }
    let core = Task { level: order.top, ..random_task(rng, order.count) };
    state.put(0, Thing::Task(core));
    tasks.push(0);
    for (&n, container) in objects.iter().zip(containers(rng, &objects)) {
        let object = Object {
            level: level(rng, order.count),
            driver: rng.pick(&tasks),
            container,
            marked: rng.once_in(3),
        };
        state.put(n, Thing::Object(object));
    }
    state
}

/// A container, or none, for each of these objects. In one of three shapes most lie in the
/// next: the ways to a root are long there, and so are the circles.
pub fn containers(rng: &mut Rng, objects: &[Number]) -> Vec<Option<Number>> {
    let (elsewhere, roots) = rng.pick(&[(1, 4), (1, 4), (1, 4), (1, 4), (30, 60), (500, 500)]);
    let container = |place: usize| {
        let next = objects[(place + 1) % objects.len()];
        let within = if rng.once_in(elsewhere) { rng.pick(objects) } else { next };
        (within != objects[place] && !rng.once_in(roots)).then_some(within)
    };
    (0..objects.len()).map(container).collect()
}

/// A level below the count that a byte can hold; 0 if there is none.
pub fn level(rng: &mut Rng, count: u16) -> u16 {
    rng.below(count.clamp(1, 256).into()) as u16
}

/// Any task.
pub fn random_task(rng: &mut Rng, count: u16) -> Task {
    Task {
        level: level(rng, count),
        read_level: level(rng, count),
        mark: rng.pick(&[Mark::Unmarked, Mark::Unmarked, Mark::Marked, Mark::Outside]),
    }
}

/// Another mark for a thing, or the same again; nothing else of it changes.
pub fn draw_mark(rng: &mut Rng, state: &mut State, n: Number) {
    let marked = rng.once_in(2);
    let mark = rng.pick(&[Mark::Unmarked, Mark::Marked, Mark::Outside]);
    match state.things[usize::from(n)] {
        Thing::Task(task) => state.put(n, Thing::Task(Task { mark, ..task })),
        Thing::Object(object) => state.put(n, Thing::Object(Object { marked, ..object })),
        _ => {}
    }
}

/// Flows and accesses, mostly few: half of them join things in use, the rest any
/// numbers, free ones too.
fn scatter_words(rng: &mut Rng, state: &mut State) {
    let all: Vec<Number> = numbers().collect();
    let tasks: Vec<Number> = state.tasks().collect();
    let objects: Vec<Number> = state.objects().map(|(n, _)| n).collect();
    let used: Vec<Number> = state.used().map(|(n, _)| n).collect();
    scatter(rng, &mut state.flows, [&used, &used, &all]);
    scatter(rng, &mut state.reads, [&tasks, &objects, &all]);
    scatter(rng, &mut state.writes, [&tasks, &objects, &all]);
}

/// Pairs of sources and ends, or of any numbers.
fn scatter(rng: &mut Rng, pairs: &mut Pairs, [sources, ends, all]: [&[Number]; 3]) {
    let count = match rng.below(20) {
        0 => 0,
        1 => 20_000,
        _ => rng.below(3000),
    };
    for _ in 0..count {
        let fit = !ends.is_empty() && rng.once_in(2);
        let (sources, ends) = if fit { (sources, ends) } else { (all, all) };
        pairs.insert((rng.pick(sources), rng.pick(ends)));
    }
}

/// What sound memory may hold that no list of calls leaves, and whether this has it.
pub fn unreached(state: &State, order: &Order) -> [(&'static str, bool); 9] {
    let is_free = |n: Number| state.thing(n).is_err();
    let pairs = || [&state.flows, &state.reads, &state.writes].into_iter().flatten();
    let level = |n: Number| state.thing(n).ok().and_then(|thing| thing.level());
    let exceeds =
        |a: Option<u16>, b: Option<u16>| a.zip(b).is_some_and(|(a, b)| !at_or_below(order, a, b));
    let tasks = || state.tasks().filter_map(|n| state.task(n).ok());
    let none_outside = tasks().all(|task| task.mark != Mark::Outside);
    let any_object = |is: &dyn Fn(Object) -> bool| state.objects().any(|(_, object)| is(object));
    [
        ("a bit in the row of a free number", pairs().any(|&(row, _)| is_free(row))),
        ("a bit in the column of a free number", pairs().any(|&(_, end)| is_free(end))),
        ("an access of an object", state.reads.iter().any(|&(row, _)| state.object(row).is_ok())),
        ("a circle of containers", state.objects().any(|(n, _)| state.is_in_itself(n))),
        (
            "an object not at or below its driver",
            any_object(&|object| exceeds(Some(object.level), level(object.driver))),
        ),
        (
            "a marked driver's unmarked object",
            any_object(&|object| !object.marked && state.is_marked(object.driver)),
        ),
        (
            "a read level not at or below the level",
            tasks().any(|task| exceeds(Some(task.read_level), Some(task.level))),
        ),
        (
            "a mark and none from outside",
            none_outside && state.used().any(|(_, thing)| thing.is_marked()),
        ),
        (
            "a flow that rises, none marked from outside",
            none_outside && state.flows.iter().any(|&(from, to)| exceeds(level(to), level(from))),
        ),
    ]
}
