//! Deletions: the flows past an object that goes, and whom a marked one is kept for.

use std::collections::BTreeMap;

use tupehiwo::ffi::{Order, Request, code};
use tupehiwo_tests::causes::{DELETED, FEEDS};
use tupehiwo_tests::compare::Pair;
use tupehiwo_tests::model::{Mark, Number, Object, Pairs, State, THINGS, Task, Thing};
use tupehiwo_tests::request;
use tupehiwo_tests::rng::{Rng, seed};
use tupehiwo_tests::worlds::{self, FAILING, FLAT, Q, SHORT, numbers};

const FEEDING: u8 = 16;

fn task(level: u16) -> Thing {
    Thing::Task(Task { level, read_level: 0, mark: Mark::Unmarked })
}

fn object(level: u16, driver: Number, container: Option<Number>) -> Thing {
    Thing::Object(Object { level, driver, container, marked: false })
}

fn mark(state: &mut State, n: Number) {
    match &mut state.things[usize::from(n)] {
        Thing::Task(task) => task.mark = Mark::Marked,
        Thing::Object(object) => object.marked = true,
        _ => {}
    }
}

/// Who asks for what to be deleted from where.
#[derive(Clone, Copy, Debug)]
struct Deletion {
    asker: Number,
    driver: Number,
    object: Number,
    container: Number,
}

impl Deletion {
    /// All numbers are tasks but the object and its container; nothing is marked, and only
    /// the accesses that are needed are recorded.
    fn among_tasks(&self) -> State {
        let mut state = State::started(FLAT.top);
        numbers().for_each(|n| state.put(n, task(0)));
        self.furnish(&mut state);
        state
    }

    fn furnish(&self, state: &mut State) {
        state.put(self.container, object(0, self.driver, None));
        state.put(self.object, object(0, self.driver, Some(self.container)));
        state.writes.extend([(self.asker, self.container), (self.driver, self.container)]);
    }

    fn request(&self) -> Request {
        request(code::DELETE, &[self.asker, self.driver, self.object, self.container])
    }

    /// What it must leave if these are the flows then.
    fn left(&self, before: &State, flows: Pairs) -> State {
        let mut after = before.clone();
        after.put(self.object, Thing::Free);
        after.flows = flows;
        for accesses in [&mut after.reads, &mut after.writes] {
            accesses.retain(|&(task, object)| task != self.object && object != self.object);
        }
        after
    }

    /// Which flows it must leave, each judged by itself.
    fn flows_left(&self, before: &State) -> Pairs {
        let &Deletion { asker, driver, object, .. } = self;
        let mut rows = [[false; THINGS]; THINGS];
        before.flows.iter().for_each(|&(p, q)| rows[usize::from(p)][usize::from(q)] = true);
        let flow = |p: Number, q: Number| rows[usize::from(p)][usize::from(q)];
        let other = |n: Number| n != object && before.things[usize::from(n)] != Thing::Free;
        let captured = before.is_marked(driver);
        let left = |p, q| {
            let stood = p != object && q != object && flow(p, q);
            let feeder = other(p) && (p == driver || flow(p, object));
            let fed = other(q) && flow(object, q);
            stood || (feeder && fed && p != q) || (captured && (p, q) == (asker, driver))
        };
        let pairs = numbers().flat_map(|p| numbers().map(move |q| (p, q)));
        pairs.filter(|&(p, q)| left(p, q)).collect()
    }

    /// Granted, and it leaves this.
    #[track_caller]
    fn must_leave(&self, pair: &mut Pair, before: State, after: &State) {
        self.must_leave_under(FLAT, pair, before, after);
    }

    #[track_caller]
    fn must_leave_under(&self, order: Order, pair: &mut Pair, before: State, after: &State) {
        pair.set_state(before);
        assert_eq!(pair.perform(order, self.request()).verdict, 0, "{self:?}");
        assert!(pair.model.state == *after, "{self:?} leaves {:?}", pair.model.state.flows);
    }

    /// Kept for what it feeds, and nothing is changed but the asker's count of refusals.
    #[track_caller]
    fn must_be_kept(&self, pair: &mut Pair, state: State) {
        pair.set_state(state);
        let mut expected = pair.model.clone();
        expected.tallies[usize::from(self.asker)].refused += 1;
        assert_eq!(pair.perform(FLAT, self.request()).verdict, FEEDING, "{self:?}");
        assert!(pair.model == expected, "{self:?} changed something");
    }
}

// ---------------------------------------------------------------- small cases

/// Flows before and after the deletion of o. Its driver is d, its container c; e asks, a and
/// b are other tasks, x is another object, and f and g are free.
const CASES: [(&str, &str); 36] = [
    ("", ""),
    ("ao", ""),
    ("oa", "da"),
    ("ao ob", "ab db"),
    ("do ob", "db"),
    ("ao do ob", "ab db"),
    ("od", ""),
    ("do od", ""),
    ("ao od", "ad"),
    ("ao od ob", "ad ab db"),
    ("oo", ""),
    ("oo oa", "da"),
    ("ao oo", ""),
    ("bo oo oa", "ba da"),
    ("ao oa", "da"),
    ("ao bo oa ob", "ab ba da db"),
    ("ao bo do oa ob od", "ab ba ad bd da db"),
    ("eo oa", "ea da"),
    ("ao oe", "ae de"),
    ("eo oe", "de"),
    ("xo oa", "xa da"),
    ("ao ox", "ax dx"),
    ("co oc", "dc"),
    ("xo co ox oc", "xc cx dx dc"),
    ("fo oa", "da"),
    ("ao of", ""),
    ("fo of", ""),
    ("fo of oa bo", "ba da"),
    ("fo fa af of ff fg gf go oa bo", "fa af ff fg gf ba da"),
    ("ab ao ob", "ab db"),
    ("aa ao oa", "aa da"),
    ("dd do od ob", "dd db"),
    ("ax xo ob", "ax xb db"),
    ("ao ob bx", "ab db bx"),
    ("da ao ob", "da ab db"),
    ("ab ba xx cd", "ab ba xx cd"),
];

const ROLES: &str = "dobcxfgae";

/// Numbers for the roles, edges among them; the core is a task.
#[derive(Clone)]
struct Cast(BTreeMap<char, Number>);

impl Cast {
    fn any(rng: &mut Rng) -> Cast {
        let mut edges = vec![0, 1, 2, 62, 63, 64, 65, 125, 126, 127];
        loop {
            rng.shuffle(&mut edges);
            let cast = Cast(ROLES.chars().zip(edges.iter().copied()).collect());
            if "ocxfg".chars().all(|role| cast.of(role) != 0) {
                return cast;
            }
        }
    }

    /// The same, but nobody has the role of e: the driver asks.
    fn alone(&self) -> Cast {
        let mut cast = self.clone();
        cast.0.remove(&'e');
        cast
    }

    fn of(&self, role: char) -> Number {
        self.0[&role]
    }

    fn deletion(&self) -> Deletion {
        let [driver, object, container] = ['d', 'o', 'c'].map(|role| self.of(role));
        let asker = self.0.get(&'e').copied().unwrap_or(driver);
        Deletion { asker, driver, object, container }
    }

    fn flows(&self, text: &str) -> Pairs {
        let flow = |ends: &str| {
            let mut ends = ends.chars().map(|role| self.of(role));
            ends.next().zip(ends.next()).expect("a flow has two ends")
        };
        text.split_whitespace().map(flow).collect()
    }

    /// These flows among things with these marks, and any accesses, of free numbers too.
    fn state(&self, rng: &mut Rng, flows: &str, is_marked: impl Fn(char) -> bool) -> State {
        let mut state = State::started(FLAT.top);
        let tasks = self.0.iter().filter(|(role, _)| "edab".contains(**role));
        tasks.for_each(|(_, &n)| state.put(n, task(0)));
        self.deletion().furnish(&mut state);
        state.put(self.of('x'), object(0, self.of('a'), None));
        let marked = self.0.iter().filter(|(role, _)| is_marked(**role));
        marked.for_each(|(_, &n)| mark(&mut state, n));
        state.flows = self.flows(flows);
        let ends: Vec<Number> = self.0.values().copied().collect();
        for accesses in [&mut state.reads, &mut state.writes] {
            let all = ends.iter().flat_map(|&task| ends.iter().map(move |&end| (task, end)));
            accesses.extend(all.filter(|_| rng.once_in(2)));
        }
        state
    }
}

/// Which roles are marked.
type Marking = fn(char) -> bool;

const MARKED: [Marking; 7] = [
    |_| false,
    |role| role == 'd',
    |role| role == 'o',
    |role| "do".contains(role),
    |role| role != 'd',
    |role| role != 'o',
    |_| true,
];

/// A case with these marks. A marked object is kept for the unmarked that it feeds; the free
/// and itself are none of these.
fn must_follow(
    pair: &mut Pair,
    rng: &mut Rng,
    (before, after): (&str, &str),
    cast: &Cast,
    is_marked: Marking,
) {
    let deletion = cast.deletion();
    let state = cast.state(rng, before, is_marked);
    let feeds = |role: char| before.contains(&format!("o{role}"));
    if is_marked('o') && "abcdex".chars().any(|role| feeds(role) && !is_marked(role)) {
        return deletion.must_be_kept(pair, state);
    }
    let mut flows = cast.flows(after);
    flows.extend(is_marked('d').then_some((deletion.asker, deletion.driver)));
    let left = deletion.left(&state, flows);
    deletion.must_leave(pair, state, &left);
}

/// The asker and the driver are two, or they are one.
#[test]
fn flows_past_the_object() {
    let mut rng = Rng::new(seed("flows_past_the_object"));
    let mut pair = Pair::new("flows past the object");
    for case in CASES.repeat(40) {
        let cast = Cast::any(&mut rng);
        for is_marked in MARKED {
            must_follow(&mut pair, &mut rng, case, &cast, is_marked);
            if !case.0.contains('e') {
                must_follow(&mut pair, &mut rng, case, &cast.alone(), is_marked);
            }
        }
    }
}

// ------------------------------------------------------------- every number

const OBJECTS: [Number; 5] = [1, 63, 64, 126, 127];

/// Of an object at an edge that is none of these numbers.
fn at_an_edge(turn: usize, others: [Number; 2]) -> Deletion {
    let mut edges = OBJECTS;
    edges.rotate_left(turn % 5);
    let object = edges.into_iter().find(|n| !others.contains(n)).expect("there are five");
    let container = edges.into_iter().rev().find(|&n| n != object).expect("there are five");
    let [asker, driver] = [[0, 62], [65, 0], [125, 2]][turn % 3];
    Deletion { asker, driver, object, container }
}

/// Each number as the only feeder and as the only fed; the driver feeds by its own right.
#[test]
fn every_feeder_and_every_fed() {
    let mut pair = Pair::new("every feeder and every fed");
    for (p, q) in numbers().flat_map(|p| numbers().map(move |q| (p, q))) {
        let deletion = at_an_edge((p + q).into(), [p, q]);
        let Deletion { driver, object, .. } = deletion;
        let mut state = deletion.among_tasks();
        state.flows = [(p, object), (object, q)].into();
        let flows = [(p, q), (driver, q)].into_iter().filter(|(from, to)| from != to).collect();
        let left = deletion.left(&state, flows);
        deletion.must_leave(&mut pair, state, &left);
    }
}

/// The others are tasks, so many of them feeders and so many fed, from both ends of a row.
#[test]
fn so_many_feeders_and_so_many_fed() {
    let mut pair = Pair::new("so many");
    let counts = [0, 1, 10, 63, 64, 126, 127];
    for (row, object) in worlds::in_three_orders(numbers()).into_iter().zip([64, 127, 1]) {
        let others: Vec<Number> = row.into_iter().filter(|&n| n != object).collect();
        let [asker, driver, container] = [0, 125, 63];
        let deletion = Deletion { asker, driver, object, container };
        for (feeders, fed) in counts.into_iter().flat_map(|n| counts.map(|m| (n, m))) {
            let (feeders, fed) = (&others[..feeders], &others[127 - fed..]);
            let mut state = deletion.among_tasks();
            state.flows.extend(feeders.iter().map(|&p| (p, object)));
            state.flows.extend(fed.iter().map(|&q| (object, q)));
            let feeders = feeders.iter().chain([&driver]);
            let pairs = feeders.flat_map(|&p| fed.iter().map(move |&q| (p, q)));
            let left = deletion.left(&state, pairs.filter(|(p, q)| p != q).collect());
            deletion.must_leave(&mut pair, state, &left);
        }
    }
}

/// One of twenty flows and accesses, or every one: none of the others is lost.
#[test]
fn all_else_stays() {
    let mut rng = Rng::new(seed("all_else_stays"));
    let mut pair = Pair::new("all else");
    let sparse = numbers().skip(1).map(|object| (object, 20));
    for (object, share) in sparse.chain(OBJECTS.map(|object| (object, 1))) {
        let [driver, container, asker] = [0, 1, 2].map(|step| (object + step) % 127 + 1);
        let deletion = Deletion { asker, driver, object, container };
        let mut state = deletion.among_tasks();
        for pairs in [&mut state.flows, &mut state.reads, &mut state.writes] {
            let every = numbers().flat_map(|row| numbers().map(move |end| (row, end)));
            pairs.extend(every.filter(|_| rng.once_in(share)));
        }
        let left = deletion.left(&state, deletion.flows_left(&state));
        deletion.must_leave(&mut pair, state, &left);
    }
}

/// With a bit in every place of its row and column, or in all but two: it is neither feeder
/// nor fed, and keeps no marked object.
#[test]
fn every_free_number() {
    let mut pair = Pair::new("every free number");
    let deletion = Deletion { asker: 0, driver: 2, object: 64, container: 63 };
    for free in numbers().skip(1).filter(|n| ![2, 63, 64].contains(n)) {
        let mut state = deletion.among_tasks();
        state.put(free, Thing::Free);
        for pairs in [&mut state.flows, &mut state.reads, &mut state.writes] {
            pairs.extend(numbers().flat_map(|n| [(free, n), (n, free)]));
        }
        let mut flows = state.flows.clone();
        flows.retain(|&(from, to)| from != 64 && to != 64);
        let mut marked = state.clone();
        mark(&mut marked, 64);
        let left = deletion.left(&marked, flows.clone());
        deletion.must_leave(&mut pair, marked, &left);
        // A task that it feeds beside is fed by the driver alone then, and the driver feeds
        // nothing else; so these two must not stand before.
        let fed = if free == 127 { 126 } else { 127 };
        state.flows.insert((64, fed));
        for flow in [(free, fed), (2, free)] {
            state.flows.remove(&flow);
            flows.remove(&flow);
        }
        flows.insert((2, fed));
        let left = deletion.left(&state, flows);
        deletion.must_leave(&mut pair, state, &left);
    }
}

// ---------------------------------------------------------------- any memory

/// Sound memory of any kind, often with everything else marked, and a deletion that only
/// its flows can refuse. `None` if there are too few objects.
fn any_deletion(rng: &mut Rng) -> Option<(State, Deletion)> {
    let mut state = match rng.once_in(20) {
        true => worlds::sound_state(rng, &FLAT),
        false => worlds::dense_state(rng, &FLAT),
    };
    let (object, found) = rng.pick_any(state.objects())?;
    let others = state.objects().map(|(n, _)| n).filter(|&n| n != object);
    let (container, asker) = (rng.pick_any(others)?, rng.pick_any(state.tasks())?);
    let driver = found.driver;
    for (n, inner) in state.objects().collect::<Vec<_>>() {
        let within = inner.container.filter(|&within| within != object);
        state.put(n, Thing::Object(Object { container: within, ..inner }));
    }
    state.put(object, Thing::Object(Object { container: Some(container), ..found }));
    state.writes.extend([(asker, container), (driver, container)]);
    if rng.once_in(4) {
        numbers().for_each(|n| mark(&mut state, n));
    }
    Some((state, Deletion { asker, driver, object, container }))
}

/// What a deletion on any memory may meet, and how often it must.
const MET: [(&str, u64); 9] = [
    ("kept", 500),
    ("flows bridged", 500),
    ("nothing fed", 100),
    ("a feeder that is fed too", 500),
    ("the driver without a flow to it", 500),
    ("the driver fed by it", 500),
    ("a flow to itself", 500),
    ("a flow from a free number", 500),
    ("a flow to a free number", 500),
];

/// Which of these a deletion met, in their order.
fn met(state: &State, deletion: &Deletion, kept: bool) -> [bool; 9] {
    let &Deletion { driver, object, .. } = deletion;
    let (feeders, fed) = (state.feeders_of(object), state.fed_by(object));
    let flow = |from, to| state.flows.contains(&(from, to));
    let mut free = numbers().filter(|&n| state.thing(n).is_err());
    [
        kept,
        !kept && !fed.is_empty(),
        fed.is_empty(),
        !feeders.is_disjoint(&fed),
        !flow(driver, object),
        flow(object, driver),
        flow(object, object),
        free.clone().any(|n| flow(n, object)),
        free.any(|n| flow(object, n)),
    ]
}

#[test]
fn deletions_on_any_memory() {
    let mut rng = Rng::new(seed("deletions_on_any_memory"));
    let mut pair = Pair::new("deletions on any memory");
    let mut times = [0; 9];
    for (state, deletion) in (0..8000).filter_map(|_| any_deletion(&mut rng)) {
        let object = deletion.object;
        let is_kept = state.is_marked(object)
            && state.flows.iter().any(|&(from, to)| {
                from == object
                    && to != object
                    && state.thing(to).is_ok_and(|thing| !thing.is_marked())
            });
        let met = met(&state, &deletion, is_kept);
        times.iter_mut().zip(met).for_each(|(times, met)| *times += u64::from(met));
        if is_kept {
            deletion.must_be_kept(&mut pair, state);
        } else {
            let left = deletion.left(&state, deletion.flows_left(&state));
            deletion.must_leave(&mut pair, state, &left);
        }
    }
    for ((what, least), times) in MET.into_iter().zip(times) {
        println!("of the deletions on any memory, {times} met: {what}");
        assert!(times >= least, "{times} {what}");
    }
    let causes = &pair.table.causes;
    let refused = FEEDS.map(|whom| (causes.times(16, whom), whom));
    let granted = DELETED.map(|what| (causes.times(0, what), what));
    println!("{refused:?} {granted:?}");
    assert!(refused.into_iter().chain(granted).all(|(times, _)| times > 10));
}

// ---------------------------------------------------------- what comes before

const DRIVER: Number = 1;
const TASK: Number = 2;
const FED: Number = 3;
const CONTAINER: Number = 10;
const OBJECT: Number = 20;
const INNER: Number = 30;
const ELSEWHERE: Number = 40;
const ASKED: [Number; 4] = [TASK, DRIVER, OBJECT, CONTAINER];

/// Under Q a deletion that is refused only because the object is marked and feeds a task;
/// granted if it is not marked.
fn feeding(marked: bool) -> State {
    let mut state = State::started(Q.top);
    [DRIVER, TASK, FED].iter().for_each(|&n| state.put(n, task(3)));
    for (n, container) in [(CONTAINER, None), (OBJECT, Some(CONTAINER)), (ELSEWHERE, None)] {
        state.put(n, object(2, DRIVER, container));
        state.writes.extend([(DRIVER, n), (TASK, n)]);
    }
    state.flows.insert((OBJECT, FED));
    if marked {
        mark(&mut state, OBJECT);
    }
    state
}

fn fill(state: &mut State) {
    state.put(INNER, object(0, DRIVER, Some(OBJECT)));
}

fn fill_and_lower(state: &mut State) {
    fill(state);
    state.put(TASK, task(1));
}

/// What is changed in that state, and the verdict where the object is marked and where it
/// is not.
type Change = (fn(&mut State), [u8; 2]);

const CHANGES: [Change; 23] = [
    (|_| {}, [16, 0]),
    (|state| state.put(99, Thing::Damaged([3; 8])), [2, 2]),
    (|state| state.writes.retain(|&held| held != (TASK, CONTAINER)), [8, 8]),
    (|state| state.writes.retain(|&held| held != (DRIVER, CONTAINER)), [8, 8]),
    (|state| state.put(TASK, task(1)), [11, 11]),
    (|state| state.put(DRIVER, task(0)), [11, 11]),
    (fill, [12, 12]),
    (fill_and_lower, [11, 11]),
    (|state| mark(state, DRIVER), [16, 0]),
    (|state| mark(state, TASK), [16, 0]),
    (|state| mark(state, CONTAINER), [16, 0]),
    (|state| [DRIVER, TASK, CONTAINER, ELSEWHERE, 0].iter().for_each(|&n| mark(state, n)), [16, 0]),
    (|state| mark(state, FED), [0, 0]),
    (|state| state.put(FED, Thing::Free), [0, 0]),
    (|state| state.flows.clear(), [0, 0]),
    (|state| state.flows = [(FED, OBJECT), (DRIVER, OBJECT), (TASK, FED)].into(), [0, 0]),
    (|state| state.flows = [(OBJECT, OBJECT)].into(), [0, 0]),
    (|state| state.flows = [(OBJECT, 99), (OBJECT, 127)].into(), [0, 0]),
    (|state| state.flows = [(OBJECT, DRIVER)].into(), [16, 0]),
    (|state| state.flows = [(OBJECT, TASK)].into(), [16, 0]),
    (|state| state.flows = [(OBJECT, 0)].into(), [16, 0]),
    (|state| state.flows = [(OBJECT, CONTAINER)].into(), [16, 0]),
    (|state| state.flows = [(OBJECT, OBJECT), (OBJECT, 99), (OBJECT, ELSEWHERE)].into(), [16, 0]),
];

#[test]
fn rows_above_and_what_is_fed() {
    let mut pair = Pair::new("rows");
    for (change, (made, verdicts)) in CHANGES.into_iter().enumerate() {
        for (marked, verdict) in [true, false].into_iter().zip(verdicts) {
            let mut state = feeding(marked);
            made(&mut state);
            pair.set_state(state);
            let answer = pair.perform(Q, request(code::DELETE, &ASKED));
            assert_eq!(answer.verdict, verdict, "change {change}, {marked}");
        }
    }
    pair.set_state(feeding(true));
    assert_eq!(pair.perform(FAILING, request(code::DELETE, &ASKED)).verdict, 3);
    assert_eq!(pair.perform_with(SHORT, Q, request(code::DELETE, &ASKED)).verdict, 2);
}

/// From a task of each level, and from the driver, to a task of each level: higher, lower and
/// unrelated ones.
#[test]
fn levels_play_no_part() {
    let [asker, driver, object, container] = ASKED;
    let deletion = Deletion { asker, driver, object, container };
    let mut state = feeding(false);
    let (feeders, fed) = ([50, 51, 52, 53], [60, 61, 62, 63]);
    for (level, (p, q)) in (0..Q.count).zip(feeders.into_iter().zip(fed)) {
        state.put(p, task(level));
        state.put(q, task(level));
        state.flows.extend([(p, object), (object, q)]);
    }
    let feeders = feeders.into_iter().chain([driver]);
    let all = feeders.flat_map(|p| fed.into_iter().chain([FED]).map(move |q| (p, q)));
    let left = deletion.left(&state, all.collect());
    deletion.must_leave_under(Q, &mut Pair::new("levels"), state, &left);
}

/// Other numbers in the call's places, and the verdict, whether the object is marked or not.
#[test]
fn numbers_drivers_and_places() {
    let kinds = [CONTAINER, CONTAINER, TASK, TASK];
    let unfit = (0..4).flat_map(|place| [128, 99, kinds[place]].map(|n| (place, n, 4)));
    let drivers = [(1, 0, 6), (1, TASK, 6)];
    let places = [(3, OBJECT, 7), (3, ELSEWHERE, 7), (2, ELSEWHERE, 7)];
    let mut pair = Pair::new("numbers");
    for (place, n, verdict) in unfit.chain(drivers).chain(places) {
        for marked in [true, false] {
            let mut arguments = ASKED;
            arguments[place] = n;
            pair.set_state(feeding(marked));
            let answer = pair.perform(Q, request(code::DELETE, &arguments));
            assert_eq!(answer.verdict, verdict, "{arguments:?}, {marked}");
        }
    }
}
