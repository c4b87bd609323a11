//! The trail through objects that were deleted since: small stories, and lists that delete
//! often, each held to its history.

use std::collections::{BTreeMap, BTreeSet};
use std::ops::Range;

use tupehiwo::ffi::{Order, Request, code};
use tupehiwo_tests::compare::Pair;
use tupehiwo_tests::history::Chains;
use tupehiwo_tests::list::List;
use tupehiwo_tests::model::{Lengths, Number, Pairs, State};
use tupehiwo_tests::rng::{Rng, seed};
use tupehiwo_tests::table::Table;
use tupehiwo_tests::worlds::{self, FLAT, numbers};
use tupehiwo_tests::{request, texts};

const FEEDING: u8 = 16;

// -------------------------------------------------------------- small stories

/// Calls under one level, from a start, and who is marked.
struct Trial(Pair);

impl Trial {
    /// The core's root 1, which the core writes to, and tasks that run from it.
    fn new(tasks: Range<Number>) -> Trial {
        let mut trial = Trial(Pair::started("trail", FLAT));
        trial.grant(code::CREATE_ROOT, &[0, 0, 1, 0]);
        trial.grant(code::WRITE, &[0, 0, 1]);
        tasks.for_each(|task| trial.grant(code::EXECUTE, &[0, 1, task, 0, 0]));
        trial
    }

    fn ask(&mut self, code: u16, arguments: &[u16]) -> u8 {
        self.0.perform(FLAT, request(code, arguments)).verdict
    }

    #[track_caller]
    fn grant(&mut self, code: u16, arguments: &[u16]) {
        assert_eq!(self.ask(code, arguments), 0, "code {code} of {arguments:?}");
    }

    /// A spread has so many rounds, and these are marked then.
    #[track_caller]
    fn must_mark(&mut self, rounds: u8, marked: impl IntoIterator<Item = Number>) {
        let answer = self.0.perform(FLAT, request(code::SPREAD, &[]));
        assert_eq!((answer.verdict, answer.rounds), (0, rounds));
        let is_marked = |&n: &Number| self.0.byte(8 * usize::from(n) + 5) != 0;
        let expected: Vec<Number> = marked.into_iter().collect();
        assert_eq!(numbers().filter(is_marked).collect::<Vec<_>>(), expected);
    }
}

/// Each task writes to a scratch file that the next one reads, all of one number: the trail
/// leads through every one of them.
#[test]
fn scratch_files_of_one_number() {
    let mut trial = Trial::new(2..127);
    for task in 2..126 {
        trial.grant(code::CREATE, &[0, 0, 127, 1, 0]);
        // Which comes first makes no difference.
        let mut calls = [(code::WRITE, task), (code::READ, task + 1)];
        calls.rotate_left(usize::from(task % 2));
        calls.iter().for_each(|&(code, asker)| trial.grant(code, &[asker, 0, 127]));
        trial.grant(code::DELETE, &[0, 0, 127, 1]);
    }
    trial.grant(code::MARK, &[64]);
    trial.must_mark(62, 64..127);
    trial.grant(code::MARK, &[2]);
    trial.must_mark(61, 2..127);
    trial.grant(code::START, &[]);
    trial.must_mark(0, []);
}

/// Task 2 drives the file 20 and never writes to it; task 3 reads it.
#[test]
fn the_driver_of_what_was_deleted() {
    let mut trial = Trial::new(2..5);
    trial.grant(code::WRITE, &[2, 0, 1]);
    trial.grant(code::CREATE, &[0, 2, 20, 1, 0]);
    trial.grant(code::READ, &[3, 2, 20]);
    trial.grant(code::DELETE, &[0, 2, 20, 1]);
    // The number's next life has another driver, and nobody is fed by it.
    trial.grant(code::CREATE, &[0, 0, 20, 1, 0]);
    trial.grant(code::WRITE, &[4, 0, 20]);
    trial.grant(code::MARK, &[4]);
    trial.must_mark(1, [4, 20]);
    trial.grant(code::MARK, &[2]);
    trial.must_mark(1, [1, 2, 3, 4, 20]);
}

/// Task 2 drives the file 20 and is marked: the file stays until its reader is marked too.
#[test]
fn a_marked_file_stays_until_its_reader_is_marked() {
    let mut trial = Trial::new(2..4);
    trial.grant(code::WRITE, &[2, 0, 1]);
    trial.grant(code::CREATE, &[0, 2, 20, 1, 0]);
    trial.grant(code::READ, &[3, 2, 20]);
    trial.grant(code::MARK, &[2]);
    assert_eq!(trial.ask(code::DELETE, &[0, 2, 20, 1]), FEEDING);
    trial.must_mark(1, [1, 2, 3, 20]);
    trial.grant(code::DELETE, &[0, 2, 20, 1]);
    // The core asked a marked driver.
    assert!(trial.0.has_flow(0, 2) && trial.0.has_flow(2, 3));
    trial.must_mark(0, [1, 2, 3]);
}

// ------------------------------------------------------- lists with a history

const LISTS: u64 = 800;
const CALLS_OF_A_LIST: usize = 300;
/// So that not everything is marked, states are made anew now and then.
const ONE_NEW_STATE_OF: usize = 70;
/// How many numbers new things get.
const POOLS: [usize; 3] = [10, 14, 20];
/// Tasks do not end: more of them would leave too few numbers for objects.
const MOST_TASKS: usize = 8;

/// Each code as often as it is asked for: an object is written to and read about once.
const CODES: [(u16, usize); 15] = [
    (code::READ, 16),
    (code::WRITE, 16),
    (code::EXECUTE, 6),
    (code::CREATE, 16),
    (code::CREATE_ROOT, 2),
    (code::MOVE, 2),
    (code::DELETE, 16),
    (code::CALL, 1),
    (code::INVOKE, 1),
    (code::PASS, 8),
    (code::POST, 1),
    (code::FIND, 1),
    (code::MARK, 1),
    (code::STEP, 1),
    (code::SPREAD, 3),
];

/// One level in half of the lists: whoever reads is fed then.
fn order(rng: &mut Rng) -> Order {
    if rng.once_in(2) { FLAT } else { worlds::order(rng) }
}

/// What must be met in lists, and how often.
const IN_LISTS: [(&str, u64); 12] = [
    ("deletion that bridges", 4000),
    ("deletion that bridges from a driver without a flow", 2000),
    ("deletion that bridges where one stood", 50),
    ("deletion refused for what is fed", 1500),
    ("new object of a number used again", 5000),
    ("new task of a number used again", 1000),
    ("mark after a deletion", 1000),
    ("spread that marks something through what has ended", 150),
    ("spread that leaves something unmarked", 3000),
    ("start in the middle", 300),
    ("load in the middle", 400),
    ("refused load in the middle", 200),
];

/// A list, and how often it met what.
struct Watched {
    list: List,
    times: BTreeMap<&'static str, u64>,
}

impl Watched {
    fn count(&mut self, what: &'static str, met: bool) {
        *self.times.entry(what).or_default() += u64::from(met);
    }

    fn new_state(&mut self) {
        let list = &mut self.list;
        let order = list.order_of_a_new_state();
        if list.rng.once_in(3) {
            let verdict = list.perform(Lengths::RIGHT, order, Request::default());
            return self.count("start in the middle", verdict == 0);
        }
        let text = match list.rng.once_in(2) {
            true => texts::any(&mut list.rng, &list.order),
            false => texts::written(&texts::granted(&mut list.rng, &list.order, 8)),
        };
        let verdict = list.load(Lengths::RIGHT, order, &text);
        self.count("load in the middle", verdict == 0);
        self.count("refused load in the middle", verdict > 3);
    }

    fn code(&mut self) -> u16 {
        let codes = CODES.iter().flat_map(|&(code, share)| std::iter::repeat_n(code, share));
        let state = &self.list.pair.model.state;
        let (things, tasks) = (state.used().count(), state.tasks().count());
        match self.list.rng.pick_any(codes).expect("there are codes") {
            _ if things < 6 && self.list.rng.once_in(2) => {
                self.list.rng.pick(&[code::CREATE_ROOT, code::EXECUTE])
            }
            code::EXECUTE if tasks > MOST_TASKS => code::CREATE,
            code => code,
        }
    }

    fn one_call(&mut self) {
        if self.list.rng.once_in(ONE_NEW_STATE_OF) {
            return self.new_state();
        }
        let request = self.request();
        let before = self.list.pair.model.state.clone();
        let bridges = self.has_bridges(request.c);
        let verdict = self.list.perform(Lengths::RIGHT, self.list.order, request);
        match request.code {
            code::DELETE if verdict == 0 => self.count_deletion(&before, request, bridges),
            code::DELETE => self.count("deletion refused for what is fed", verdict == FEEDING),
            code::SPREAD => self.count_spread(&before),
            code::MARK if verdict == 0 => {
                self.count("mark after a deletion", self.list.history.has_ended());
            }
            code::EXECUTE | code::CREATE | code::CREATE_ROOT if verdict == 0 => {
                let again = self.list.history.is_used_again(request.c);
                let task = request.code == code::EXECUTE;
                self.count("new task of a number used again", task && again);
                self.count("new object of a number used again", !task && again);
            }
            _ => {}
        }
    }

    /// An object with its driver and container, which holds none and, if it must, feeds
    /// something.
    fn leaf(&mut self, feeding: bool) -> Option<(Number, Number, Number)> {
        let state = &self.list.pair.model.state;
        let holds = |n| state.objects().any(|(_, inner)| inner.container == Some(n));
        let is_leaf = |n| !holds(n) && (!feeding || !state.fed_by(n).is_empty());
        let contained = state.objects().filter_map(|(n, o)| Some((n, o.driver, o.container?)));
        self.list.rng.pick_any(contained.filter(|&(n, ..)| is_leaf(n)))
    }

    /// Most reads, writes and deletions are about such an object, and most marks name a task
    /// that feeds something by a bridge alone.
    fn request(&mut self) -> Request {
        let (code, directed) = (self.code(), !self.list.rng.once_in(5));
        let request = match code {
            code::DELETE if directed => {
                self.about_leaf(code).or_else(|| self.about_leaf(code::READ))
            }
            code::READ | code::WRITE if directed => self.about_leaf(code),
            code::MARK if directed => self.of_bridge(),
            _ => None,
        };
        request.unwrap_or_else(|| self.list.author().request_of(code))
    }

    fn about_leaf(&mut self, code: u16) -> Option<Request> {
        let deleting = code == code::DELETE;
        let (object, driver, container) = self.leaf(deleting)?;
        let state = &self.list.pair.model.state;
        let may = |task: &Number| !deleting || state.writes.contains(&(*task, container));
        let asker = self.list.rng.pick_any(state.tasks().filter(may))?;
        Some(request(code, &[asker, driver, object, container]))
    }

    fn of_bridge(&mut self) -> Option<Request> {
        let (state, history) = (&self.list.pair.model.state, &self.list.history);
        let bridges = state.flows.iter().filter(|&&(from, to)| history.is_bridge(from, to));
        let tasks = bridges.map(|&(from, _)| from).filter(|&n| state.task(n).is_ok());
        self.list.rng.pick_any(tasks).map(|task| request(code::MARK, &[task]))
    }

    /// Whether a flow from or to it stands by a bridge alone.
    fn has_bridges(&self, n: Number) -> bool {
        let flows = &self.list.pair.model.state.flows;
        let mut own = flows.iter().filter(|&&(from, to)| from == n || to == n);
        own.any(|&(from, to)| self.list.history.is_bridge(from, to))
    }

    fn count_deletion(&mut self, before: &State, asked: Request, bridges: bool) {
        let Request { a, b: driver, c: object, .. } = asked;
        let flows = &self.list.pair.model.state.flows;
        let bridged: Pairs = flows.difference(&before.flows).copied().collect();
        let bridged: Pairs = bridged.into_iter().filter(|&flow| flow != (a, driver)).collect();
        let by_right = !before.flows.contains(&(driver, object));
        let from_driver = by_right && bridged.iter().any(|&(from, _)| from == driver);
        self.count("deletion that bridges", !bridged.is_empty());
        self.count("deletion that bridges from a driver without a flow", from_driver);
        self.count("deletion that bridges where one stood", bridges && !bridged.is_empty());
    }

    fn count_spread(&mut self, before: &State) {
        let (living, state) = (self.list.living(), &self.list.pair.model.state);
        let unmarked = living.iter().any(|&n| !state.is_marked(n));
        let is_new = |n: &Number| state.is_marked(*n) && !before.is_marked(*n);
        let new: BTreeSet<Number> = living.iter().copied().filter(is_new).collect();
        let alive = self.list.history.reached(&living, Chains::OfTheLiving);
        self.count("spread that marks something through what has ended", !new.is_subset(&alive));
        self.count("spread that leaves something unmarked", unmarked);
    }
}

/// After each granted spread what lives is marked exactly where the history leads to it: a
/// list sees to that itself.
#[test]
fn trails_through_what_has_ended() {
    let first = seed("trails_through_what_has_ended");
    let mut times = BTreeMap::new();
    let mut table = Table::default();
    for number in 0..LISTS {
        let list = List::begin(first.wrapping_add(number), order, &POOLS);
        let mut watched = Watched { list, times };
        for _ in 0..CALLS_OF_A_LIST {
            watched.one_call();
            watched.list.must_keep_the_limits();
        }
        times = watched.times;
        table.add(&watched.list.pair.table);
    }
    println!("{} calls in lists that delete\n{table}", table.calls());
    for (what, least) in IN_LISTS {
        let times = times.get(what).copied().unwrap_or(0);
        println!("of the deletions in lists: {times} times a {what}");
        assert!(times >= least, "{times} times a {what}");
    }
}
