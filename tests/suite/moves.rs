//! Moves towards what lies inside the object: chains of every length, circles that no
//! list of calls leaves, and what else a move can be refused for.

use tupehiwo::ffi::code;
use tupehiwo_tests::causes::{MOVED, NESTED};
use tupehiwo_tests::compare::Pair;
use tupehiwo_tests::model::{Mark, Number, Object, State, THINGS, Task, Thing};
use tupehiwo_tests::request;
use tupehiwo_tests::rng::{Rng, seed};
use tupehiwo_tests::worlds::{self, FAILING, FLAT, Q, SHORT};

const PLACE: u8 = 7;

/// Objects of one level that every task may write: only their places matter.
struct Drawers {
    pair: Pair,
    tasks: Vec<Number>,
}

impl Drawers {
    /// The core alone, so that all other numbers are left for objects.
    fn started() -> Drawers {
        Drawers { pair: Pair::started("drawers", FLAT), tasks: vec![0] }
    }

    /// Puts in sound memory that calls need not reach: each object in its container.
    fn lend(&mut self, containers: &[(Number, Option<Number>)]) {
        let mut state = State::started(FLAT.top);
        for &(n, container) in containers {
            let object = Object { level: 0, driver: 0, container, marked: false };
            state.put(n, Thing::Object(object));
            state.writes.insert((0, n));
        }
        self.pair.set_state(state);
    }

    fn grant(&mut self, code: u16, arguments: &[u16]) {
        let answer = self.pair.perform(FLAT, request(code, arguments));
        assert_eq!(answer.verdict, 0, "code {code} of {arguments:?}");
    }

    /// A task, run from an object.
    fn run(&mut self, task: Number, image: Number) {
        self.grant(code::EXECUTE, &[0, image, task, 0, 0]);
        self.tasks.push(task);
    }

    /// A new object, of one task or another.
    fn put(&mut self, n: Number, container: Option<Number>) {
        let driver = self.tasks[usize::from(n) % self.tasks.len()];
        match container {
            Some(container) => self.grant(code::CREATE, &[0, driver, n, container, 0]),
            None => self.grant(code::CREATE_ROOT, &[0, driver, n, 0]),
        }
        for task in self.tasks.clone() {
            self.grant(code::WRITE, &[task, driver, n]);
        }
    }

    fn container_of(&self, object: Number) -> Option<Number> {
        self.pair.model.state.object(object).ok().and_then(|object| object.container)
    }

    /// How many steps lead from one to the other, if any do.
    fn steps_between(&self, from: Number, to: Number) -> Option<usize> {
        let mut steps = self.pair.model.state.containers(from).take(THINGS);
        steps.position(|outer| outer == to).map(|place| place + 1)
    }

    /// Asks for a move out of the container that the object lies in.
    fn ask(&mut self, object: Number, to: Number) -> u8 {
        let moved = self.pair.model.state.object(object).expect("an object");
        let from = moved.container.expect("it is no root");
        self.pair.perform(FLAT, request(code::MOVE, &[0, moved.driver, object, from, to])).verdict
    }

    /// Refused for its place, and nothing is changed but the core's count of refusals.
    fn must_stay(&mut self, object: Number, to: Number) {
        let mut expected = self.pair.model.clone();
        expected.tallies[0].refused += 1;
        assert_eq!(self.ask(object, to), PLACE, "{object} to {to}");
        assert!(self.pair.model == expected, "{object} to {to} changed something");
    }

    fn must_go(&mut self, object: Number, to: Number) {
        assert_eq!(self.ask(object, to), 0, "{object} to {to}");
        assert_eq!(self.container_of(object), Some(to));
    }
}

/// All numbers of objects, in three orders.
fn rows() -> [Vec<Number>; 3] {
    worlds::in_three_orders(1..THINGS as Number)
}

/// A chain of up to 126 under a root: at no length does its top go into its end, nor
/// what lies between.
#[test]
fn nothing_goes_into_the_end_of_its_chain() {
    for row in rows() {
        let mut drawers = Drawers::started();
        drawers.put(row[0], None);
        for end in 1..row.len() {
            drawers.put(row[end], Some(row[end - 1]));
            for place in [1, end.div_ceil(2), end] {
                drawers.must_stay(row[place], row[end]);
            }
        }
    }
}

/// At every length another object goes into the chain's end, and back to its root.
#[test]
fn another_object_goes_into_the_end_of_a_chain() {
    for row in rows() {
        let (&other, chain) = row.split_last().expect("a row of numbers");
        let mut drawers = Drawers::started();
        drawers.put(chain[0], None);
        drawers.put(other, Some(chain[0]));
        for end in 1..chain.len() {
            drawers.put(chain[end], Some(chain[end - 1]));
            drawers.must_go(other, chain[end]);
            drawers.must_go(other, chain[0]);
        }
    }
}

/// 30 lies in 20, that in the root 10. It holds 51, and that 60. Beside it lies 40, which
/// holds 41; 11 is another root. The drivers are two.
fn kin() -> Drawers {
    let mut drawers = Drawers::started();
    drawers.put(127, None);
    drawers.run(1, 127);
    for (n, container) in [(10, None), (11, None), (20, Some(10)), (30, Some(20)), (40, Some(20))] {
        drawers.put(n, container);
    }
    for (n, container) in [(41, 40), (51, 30), (60, 51)] {
        drawers.put(n, Some(container));
    }
    drawers
}

#[test]
fn into_its_kin() {
    for inner in [30, 51, 60] {
        kin().must_stay(30, inner);
    }
    for other in [40, 41, 10, 11, 127] {
        kin().must_go(30, other);
    }
}

#[test]
fn what_is_moved_takes_its_inside_along() {
    let mut drawers = kin();
    drawers.must_go(30, 41);
    // 40 now holds 41, 30, 51 and 60, each in the one before.
    for inner in [41, 30, 51, 60] {
        drawers.must_stay(40, inner);
    }
    drawers.must_go(51, 20);
    drawers.must_stay(40, 30);
    drawers.must_go(40, 60);
    drawers.must_stay(51, 30);
}

/// All objects in a row, each in the next, and the last in the one at `bend`: a circle,
/// and a tail that leads into it.
fn bent(row: &[Number], bend: usize) -> Vec<(Number, Option<Number>)> {
    let next = |place: usize| row.get(place + 1).copied().unwrap_or(row[bend]);
    row.iter().enumerate().map(|(place, &n)| (n, Some(next(place)))).collect()
}

/// A circle through the object keeps it out of all that leads there; one that it only
/// hangs in lets it in. The bends make circles of 127, 126, 64, 63 and 2.
#[test]
fn circles_and_tails_of_all_objects() {
    let last = THINGS - 2;
    for row in rows() {
        for bend in [0, 1, 63, 64, last - 1] {
            let (mut drawers, containers) = (Drawers::started(), bent(&row, bend));
            for place in [0, bend.saturating_sub(1), bend, last] {
                let from = if place == last { bend } else { place + 1 };
                for end in 0..row.len() {
                    drawers.lend(&containers);
                    match end <= place || place >= bend || end == from {
                        true => drawers.must_stay(row[place], row[end]),
                        false => drawers.must_go(row[place], row[end]),
                    }
                }
            }
        }
    }
}

/// 3 and 4 lie in each other, 5 in 4, and 2 in the root 1.
#[test]
fn a_circle_beside() {
    let containers = [(1, None), (2, Some(1)), (3, Some(4)), (4, Some(3)), (5, Some(4))];
    let mut drawers = Drawers::started();
    for (object, to, goes) in
        [(2, 3, true), (2, 4, true), (2, 5, true), (4, 1, true), (4, 2, true), (4, 5, false)]
    {
        drawers.lend(&containers);
        match goes {
            true => drawers.must_go(object, to),
            false => drawers.must_stay(object, to),
        }
    }
}

/// Containers of any shape, and any moves among them.
#[test]
fn any_containers() {
    let mut rng = Rng::new(seed("any_containers"));
    let mut drawers = Drawers::started();
    let mut far = 0;
    for _ in 0..500 {
        let mut row: Vec<Number> = (1..THINGS as Number).collect();
        rng.shuffle(&mut row);
        row.truncate(2 + rng.below(126));
        let within = worlds::containers(&mut rng, &row);
        let containers: Vec<_> = row.iter().copied().zip(within).collect();
        drawers.lend(&containers);
        for _ in 0..20 {
            let (object, to) = (rng.pick(&row), rng.pick(&row));
            if drawers.container_of(object).is_some() {
                drawers.ask(object, to);
                far += u32::from(drawers.steps_between(to, object) > Some(64));
            }
        }
    }
    let causes = &drawers.pair.table.causes;
    let refused = NESTED.map(|(_, how)| (causes.times(7, how), how));
    let granted = MOVED.map(|how| (causes.times(0, how), how));
    println!("{far} of them over 64 steps: {refused:?} {granted:?}");
    assert!(far > 50);
    assert!(refused.into_iter().chain(granted).all(|(times, _)| times > 30));
}

const DRIVER: Number = 1;
const TASK: Number = 2;
const FROM: Number = 10;
const OBJECT: Number = 20;
const TO: Number = 30;
const ELSEWHERE: Number = 40;
const ASKED: [Number; 5] = [TASK, DRIVER, OBJECT, FROM, TO];

/// Under Q a move that is refused only because its new container lies inside the
/// object; granted if that is not so.
fn nested(within: bool) -> State {
    let mut state = State::started(Q.top);
    for n in [DRIVER, TASK] {
        state.put(n, Thing::Task(Task { level: 3, read_level: 0, mark: Mark::Unmarked }));
    }
    let inside = if within { OBJECT } else { FROM };
    for (n, container) in
        [(FROM, None), (OBJECT, Some(FROM)), (TO, Some(inside)), (ELSEWHERE, None)]
    {
        let object = Object { level: 2, driver: DRIVER, container, marked: false };
        state.put(n, Thing::Object(object));
        state.writes.extend([(DRIVER, n), (TASK, n)]);
    }
    state
}

fn set_level(state: &mut State, n: Number, level: u16) {
    match &mut state.things[usize::from(n)] {
        Thing::Task(task) => task.level = level,
        Thing::Object(object) => object.level = level,
        other => panic!("{n} has no level: {other:?}"),
    }
}

fn mark_driver(state: &mut State) {
    let mark = Mark::Outside;
    state.put(DRIVER, Thing::Task(Task { level: 3, read_level: 0, mark }));
}

fn let_slip(state: &mut State) {
    mark_driver(state);
    set_level(state, TASK, 1);
}

/// What is changed in that state, and the verdict where the container lies inside the
/// object and where it does not.
type Change = (fn(&mut State), [u8; 2]);

const CHANGES: [Change; 12] = [
    (|_| {}, [7, 0]),
    (|state| state.put(99, Thing::Damaged([3; 8])), [2, 2]),
    (|state| state.writes.retain(|&held| held != (TASK, FROM)), [7, 8]),
    (|state| state.writes.retain(|&held| held != (TASK, TO)), [7, 8]),
    (|state| state.writes.retain(|&held| held != (DRIVER, FROM)), [7, 8]),
    (|state| state.writes.retain(|&held| held != (DRIVER, TO)), [7, 8]),
    (|state| state.writes.clear(), [7, 8]),
    (|state| set_level(state, TASK, 1), [7, 11]),
    (|state| set_level(state, DRIVER, 0), [7, 11]),
    (|state| set_level(state, TO, 1), [7, 11]),
    (mark_driver, [7, 0]),
    (let_slip, [7, 1]),
];

/// What stands in the rows above comes first, what stands below comes after.
#[test]
fn rows_above_and_below() {
    let mut pair = Pair::new("rows");
    for (change, (made, verdicts)) in CHANGES.into_iter().enumerate() {
        for (within, verdict) in [true, false].into_iter().zip(verdicts) {
            let mut state = nested(within);
            made(&mut state);
            pair.set_state(state);
            let answer = pair.perform(Q, request(code::MOVE, &ASKED));
            assert_eq!(answer.verdict, verdict, "change {change}, {within}");
        }
    }
    pair.set_state(nested(true));
    assert_eq!(pair.perform(FAILING, request(code::MOVE, &ASKED)).verdict, 3);
    assert_eq!(pair.perform_with(SHORT, Q, request(code::MOVE, &ASKED)).verdict, 2);
}

/// Other numbers in the call's places, and the verdict, whether nested or not.
#[test]
fn numbers_drivers_and_the_other_places() {
    let kinds = [FROM, FROM, TASK, TASK, TASK];
    let unfit = (0..5).flat_map(|place| [128, 99, kinds[place]].map(|n| (place, n, 4)));
    let drivers = [(1, 0, 6), (1, TASK, 6)];
    let places = [(3, OBJECT, 7), (4, OBJECT, 7), (3, TO, 7), (4, FROM, 7), (3, ELSEWHERE, 7)];
    let mut pair = Pair::new("numbers");
    for (place, n, verdict) in unfit.chain(drivers).chain(places) {
        for within in [true, false] {
            let mut arguments = ASKED;
            arguments[place] = n;
            pair.set_state(nested(within));
            let answer = pair.perform(Q, request(code::MOVE, &arguments));
            assert_eq!(answer.verdict, verdict, "{arguments:?}, {within}");
        }
    }
}
