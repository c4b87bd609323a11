//! For every task that may ask, a small world in which a call of each code is granted, and
//! others in which it slips or is refused, row by row.

use crate::model::{Lengths, Mark, Number, Object, State, Task, Thing};
use crate::request;
use crate::worlds::Q;
use tupehiwo::ffi::{Request, code};

/// The verdicts by their words.
pub const GRANTED: u8 = 0;
pub const SLIPPED: u8 = 1;
pub const STATE: u8 = 2;
pub const ORDER: u8 = 3;
pub const NUMBER: u8 = 4;
pub const TAKEN: u8 = 5;
pub const DRIVER: u8 = 6;
pub const PLACE: u8 = 7;
pub const HELD: u8 = 8;
pub const SCALE: u8 = 9;
pub const PATH: u8 = 10;
pub const RULE: u8 = 11;
pub const FILLED: u8 = 12;
pub const STILL: u8 = 13;
pub const FEEDING: u8 = 16;

/// The level of all that is not said to be lower.
pub const TOP: u16 = Q.top;

/// The numbers of a call: of the one that asks, and of others, which follow it.
#[derive(Clone, Copy)]
pub struct Cast {
    pub asker: Number,
    pub driver: Number,
    pub other: Number,
    pub object: Number,
    pub from: Number,
    pub to: Number,
    pub new: Number,
    pub free: Number,
}

impl Cast {
    pub fn of(asker: Number) -> Cast {
        let mut behind = (1..).map(|step| (asker + step) % 128).filter(|&n| n != 0);
        let [driver, other, object, from, to, new, free] =
            std::array::from_fn(|_| behind.next().expect("there is always another"));
        Cast { asker, driver, other, object, from, to, new, free }
    }

    /// All at the top, with every access and flow recorded, the other task marked: each of
    /// the calls below is granted.
    pub fn state(&self) -> State {
        let mut state = State::started(TOP);
        for n in [self.asker, self.driver, self.other] {
            let mark = if n == self.other { Mark::Outside } else { Mark::Unmarked };
            state.put(n, Thing::Task(Task { level: TOP, read_level: TOP, mark }));
        }
        for (n, container) in [(self.from, None), (self.to, None), (self.object, Some(self.from))] {
            state.put(n, self.driven(TOP, container));
        }
        let used: Vec<Number> = state.used().map(|(n, _)| n).collect();
        for pairs in [&mut state.flows, &mut state.reads, &mut state.writes] {
            pairs.extend(used.iter().flat_map(|&row| used.iter().map(move |&end| (row, end))));
        }
        state
    }

    pub fn driven(&self, level: u16, container: Option<Number>) -> Thing {
        Thing::Object(Object { level, driver: self.driver, container, marked: false })
    }

    /// The same with the driver marked and the object at 2, the asker at 1 or, if it is the
    /// core, at the top: the asker's read slips; its write and move slip too, but for the
    /// core's.
    pub fn slippery(&self) -> State {
        let mut state = self.state();
        let level = if self.asker == 0 { TOP } else { 1 };
        let mark = Mark::Unmarked;
        state.put(self.asker, Thing::Task(Task { level, read_level: level, mark }));
        let mark = Mark::Marked;
        state.put(self.driver, Thing::Task(Task { level: TOP, read_level: TOP, mark }));
        state.put(self.object, self.driven(2, Some(self.from)));
        state
    }

    /// Memory that is not sound, at the asker's record or at another.
    pub fn unsound(&self) -> [State; 2] {
        [self.asker, self.free].map(|n| {
            let mut state = self.state();
            state.put(n, Thing::Damaged([1, 0, 0, 0, 0, 2, 0, 0]));
            state
        })
    }

    /// A call of each code that a task asks for.
    pub fn asked(&self) -> [Request; 12] {
        let &Cast { asker, driver, other, object, from, to, new, .. } = self;
        [
            request(code::READ, &[asker, driver, object]),
            request(code::WRITE, &[asker, driver, object]),
            request(code::EXECUTE, &[asker, object, new, TOP, TOP]),
            request(code::CREATE, &[asker, driver, new, from, TOP]),
            request(code::CREATE_ROOT, &[asker, driver, new, TOP]),
            request(code::MOVE, &[asker, driver, object, from, to]),
            request(code::DELETE, &[asker, driver, object, from]),
            request(code::CALL, &[asker, other]),
            request(code::INVOKE, &[asker, other]),
            request(code::PASS, &[asker, object, other]),
            request(code::POST, &[asker, object, other]),
            request(code::FIND, &[asker, other, object]),
        ]
    }

    /// States, and calls that are refused there with 5 to 8: for each such verdict a call of
    /// each code that can have it.
    pub fn refused(&self) -> Vec<(State, u8, Vec<Request>)> {
        let &Cast { asker, other, object, from, to, .. } = self;
        let [read, write, execute, create, root, moving, delete, _, _, pass, post, find] =
            self.asked();
        let state = self.state();
        let mut nothing_held = self.state();
        for pairs in [&mut nothing_held.flows, &mut nothing_held.reads, &mut nothing_held.writes] {
            pairs.clear();
        }
        let new = |call| with(call, 2, object);
        let through = |call| with(call, 1, other);
        let places = vec![
            with(moving, 4, from),
            with(delete, 3, to),
            with(pass, 2, object),
            with(post, 2, asker),
            with(find, 2, asker),
        ];
        vec![
            (state.clone(), TAKEN, [execute, create, root].map(new).into()),
            (state.clone(), DRIVER, [read, write, moving, delete].map(through).into()),
            (state, PLACE, places),
            (nothing_held, HELD, vec![create, moving, delete, pass, post, find]),
        ]
    }

    /// The same of the level tests, if the asker is not the core: 10 and 11.
    pub fn too_low(&self) -> [(State, u8, Vec<Request>); 5] {
        let &Cast { asker, driver, other, object, from, .. } = self;
        let [read, write, execute, create, root, moving, delete, call, invoke, pass, post, _] =
            self.asked();
        let task =
            |level, read_level| Thing::Task(Task { level, read_level, mark: Mark::Unmarked });
        let changed = |things: &[(Number, Thing)]| {
            let mut state = self.state();
            things.iter().for_each(|&(n, thing)| state.put(n, thing));
            state
        };
        let low_driver = changed(&[(driver, task(0, 0))]);
        let low_asker = changed(&[(asker, task(1, 1))]);
        let low = self.driven(0, Some(from));
        let low_object = changed(&[(object, low)]);
        let low_reads = changed(&[(object, low), (asker, task(TOP, 0)), (other, task(TOP, 0))]);
        [
            (low_driver.clone(), PATH, vec![read, with(call, 1, driver)]),
            (low_driver, RULE, vec![write, create, root, moving, delete]),
            (low_asker, RULE, vec![write, create, root, moving, delete, invoke]),
            (low_object, RULE, vec![read, execute]),
            (low_reads, RULE, vec![pass, post]),
        ]
    }

    /// The same of deletions alone: the object holds another, or it is marked.
    pub fn kept(&self) -> [(State, u8, Vec<Request>); 2] {
        let &Cast { driver, object, from, to, .. } = self;
        let [_, _, _, _, _, _, delete, ..] = self.asked();
        let (mut filled, mut feeding) = (self.state(), self.state());
        filled.put(to, self.driven(TOP, Some(object)));
        let marked = Object { level: TOP, driver, container: Some(from), marked: true };
        feeding.put(object, Thing::Object(marked));
        [(filled, FILLED, vec![delete]), (feeding, FEEDING, vec![delete])]
    }

    /// Calls that no task asks for, though their first number is the asker's, and their
    /// verdicts.
    pub fn unasked(&self) -> [(Request, u8); 6] {
        let &Cast { asker, driver, object, .. } = self;
        let of = |code| request(code, &[asker, driver, object]);
        [
            (of(code::MARK), GRANTED),
            (of(code::STEP), GRANTED),
            (of(code::SPREAD), GRANTED),
            (of(16), NUMBER),
            (of(256 + code::READ), NUMBER),
            (of(65535), NUMBER),
        ]
    }

    /// All of these, and a start.
    pub fn every_call(&self) -> Vec<Request> {
        let start = request(code::START, &[self.asker, self.driver, self.object]);
        let unasked = self.unasked().map(|(call, _)| call);
        self.asked().into_iter().chain(unasked).chain([start]).collect()
    }
}

/// The same call with another number in a place.
pub fn with(call: Request, place: usize, number: Number) -> Request {
    let Request { code, a, b, c, d, e } = call;
    let mut arguments = [a, b, c, d, e];
    arguments[place] = number;
    request(code, &arguments)
}

/// What does not fit in a later place: 9 where the call takes a level, otherwise 4.
pub fn unfit(cast: &Cast, call: Request, place: usize) -> Vec<(Number, u8)> {
    let &Cast { asker, driver, other, object, from, to, free, .. } = cast;
    let high = [128, 129, 255, 256, 65535];
    let high_or =
        |more: &[Number], verdict| high.iter().chain(more).map(|&n| (n, verdict)).collect();
    match (call.code, place) {
        // a level
        (code::EXECUTE, 3 | 4) | (code::CREATE, 4) | (code::CREATE_ROOT, 3) => high_or(&[4], SCALE),
        // a number for the new thing
        (code::EXECUTE | code::CREATE | code::CREATE_ROOT, 2) => high_or(&[], NUMBER),
        // any thing
        (code::PASS | code::FIND, 2) => high_or(&[free], NUMBER),
        // an object
        (code::EXECUTE | code::PASS | code::POST, 1)
        | (code::READ | code::WRITE | code::MOVE | code::DELETE, 2)
        | (_, 3 | 4) => high_or(&[free, asker, driver, other], NUMBER),
        // a task
        _ => high_or(&[free, object, from, to], NUMBER),
    }
}

/// Lists of lengths that they may not have, beside bytes and words of lengths that they may
/// have or not.
pub fn wrong_lengths() -> Vec<Lengths> {
    let lists = [0, 1, 2, 64, 126, 127, 129, 130, 255, 256];
    let memories = [(1024, 768), (1023, 768), (1024, 769), (0, 0)];
    let beside = |tallies| memories.map(|(bytes, words)| Lengths { bytes, words, tallies });
    lists.into_iter().flat_map(beside).collect()
}
