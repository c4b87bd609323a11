//! For each setting of the decision table that some order allows, small worlds in which a
//! call meets it.

use std::collections::{BTreeMap, BTreeSet};

use crate::cast::Cast;
use crate::model::{Mark, Object, State, Task, Thing, passes};
use crate::request;
use crate::rng::Rng;
use crate::settings::{CODES, Met};
use tupehiwo::ffi::{Order, Request, code};

/// A setting compares at most four levels with each other, and any order of these may be
/// found in an order of four levels and a top.
const COMPARED: u16 = 4;

/// Levels and marks of a task, a driver and an object. Another task is as the driver is, and
/// the new container is at the task's read level.
#[derive(Clone, Copy, Debug)]
pub struct Stage {
    pub order: Order,
    /// The task's, its read level, the driver's, the object's.
    levels: [u16; 4],
    /// The task, and the driver.
    marked: [bool; 2],
    /// No setting hangs on that.
    objects_marked: bool,
}

impl Stage {
    /// The state in which nothing is recorded but what a call of this code needs.
    pub fn state(&self, cast: &Cast, code: u16) -> State {
        let &Cast { asker, driver, other, object, from, to, .. } = cast;
        let mut state = State::started(self.order.top);
        self.fill(cast, &mut state);
        match code {
            code::MOVE | code::DELETE => {
                state.writes.extend([(asker, from), (driver, from), (asker, to), (driver, to)]);
            }
            code::PASS => {
                state.reads.insert((asker, object));
                state.flows.insert((asker, other));
            }
            code::POST => {
                state.reads.insert((asker, object));
                state.flows.insert((other, object));
            }
            _ => {}
        }
        state
    }

    fn fill(&self, cast: &Cast, state: &mut State) {
        let &Cast { asker, driver, other, object, from, to, .. } = cast;
        let [level, read_level, of_driver, of_object] = self.levels;
        let [task_marked, driver_marked] = self.marked;
        let mark = if task_marked { Mark::Outside } else { Mark::Unmarked };
        state.put(asker, Thing::Task(Task { level, read_level, mark }));
        let mark = if driver_marked { Mark::Marked } else { Mark::Unmarked };
        for n in [driver, other] {
            state.put(n, Thing::Task(Task { level: of_driver, read_level: of_driver, mark }));
        }
        for (n, level, container) in
            [(object, of_object, Some(from)), (from, of_object, None), (to, read_level, None)]
        {
            let marked = self.objects_marked;
            state.put(n, Thing::Object(Object { level, driver, container, marked }));
        }
    }
}

/// The call of this code.
pub fn call(cast: &Cast, code: u16) -> Request {
    let &Cast { asker, driver, other, object, from, to, .. } = cast;
    match code {
        code::READ | code::WRITE => request(code, &[asker, driver, object]),
        code::MOVE => request(code, &[asker, driver, object, from, to]),
        code::DELETE => request(code, &[asker, driver, object, from]),
        code::PASS => request(code, &[asker, object, other]),
        code::POST => request(code, &[other, object, asker]),
        _ => request(code, &[asker, other]),
    }
}

/// Every order of four levels and a top.
pub fn orders() -> Vec<Order> {
    let pairs = (0..COMPARED).flat_map(|a| (0..COMPARED).map(move |b| (a, b)));
    let pairs: Vec<(u16, u16)> = pairs.filter(|(a, b)| a != b).collect();
    let order = |relation: u32| {
        let mut order = Order { count: COMPARED + 1, top: COMPARED, ..Order::default() };
        for level in 0..=COMPARED {
            order.rows[usize::from(level)] = 1 << level | 1 << COMPARED;
        }
        let related = pairs.iter().enumerate().filter(|(bit, _)| relation >> bit & 1 == 1);
        related.for_each(|(_, &(a, b))| order.rows[usize::from(a)] |= 1 << b);
        order
    };
    (0..1 << pairs.len()).map(order).filter(passes).collect()
}

/// Every setting that some order allows, each with at most so many stages that meet it.
pub fn stages(most: usize) -> BTreeMap<Met, Vec<Stage>> {
    let mut rng = Rng::new(0);
    let cast = Cast::of(1);
    let mut found: BTreeMap<Met, (usize, Vec<Stage>)> = BTreeMap::new();
    for order in orders() {
        let mut state = State::started(order.top);
        for mut stage in under(order) {
            stage.objects_marked = rng.once_in(2);
            stage.fill(&cast, &mut state);
            for met in CODES.iter().filter_map(|&code| Met::of(&state, &order, call(&cast, code))) {
                let (times, kept) = found.entry(met).or_default();
                *times += 1;
                // Each of those that there are is as likely to be kept.
                match rng.below(*times) {
                    _ if kept.len() < most => kept.push(stage),
                    place if place < most => kept[place] = stage,
                    _ => {}
                }
            }
        }
    }
    found.into_iter().map(|(met, (_, stages))| (met, stages)).collect()
}

/// All levels and marks under an order.
fn under(order: Order) -> impl Iterator<Item = Stage> {
    let count = usize::from(order.count);
    let level = move |choice: usize, place: u32| (choice / count.pow(place) % count) as u16;
    (0..count.pow(4)).flat_map(move |choice| {
        let levels = [0, 1, 2, 3].map(|place| level(choice, place));
        let all = [[false, false], [false, true], [true, false], [true, true]];
        all.into_iter().map(move |marked| Stage { order, levels, marked, objects_marked: false })
    })
}

/// The settings that some order allows.
pub fn possible() -> BTreeSet<Met> {
    stages(0).into_keys().collect()
}
