//! Which setting of the decision table a call meets, whether it was answered as the table
//! says, and how often each was met.

use std::collections::{BTreeMap, BTreeSet};
use std::fmt;

use crate::decisions::{Entry, Facts, OPERATIONS, SETTINGS, setting_of};
use crate::model::{Number, Object, State, Task, Verdict, at_or_below};
use tupehiwo::ffi::{Order, Request, code};

/// The code of each operation, in the table's order.
pub const CODES: [u16; 8] = [
    code::READ,
    code::WRITE,
    code::MOVE,
    code::DELETE,
    code::CALL,
    code::INVOKE,
    code::PASS,
    code::POST,
];

/// A setting of an operation, and the test apart where the operation has it.
#[derive(Clone, Copy, Debug, PartialEq, Eq, PartialOrd, Ord)]
pub struct Met {
    pub operation: usize,
    pub setting: usize,
    /// Whether the object is at or below its driver.
    pub below: Option<bool>,
}

impl Met {
    /// What a call meets on this state, if it comes to its level tests. `None` where it is
    /// none of the eight, or a number names the wrong thing.
    pub fn of(state: &State, order: &Order, request: Request) -> Option<Met> {
        Look { state, order }.found(request)?.met(request)
    }

    /// What the table says, and the test apart.
    pub fn entry(&self) -> Entry {
        let entry = OPERATIONS[self.operation].entry(self.setting);
        entry.apart(self.below.unwrap_or(true))
    }
}

impl fmt::Display for Met {
    fn fmt(&self, f: &mut fmt::Formatter<'_>) -> fmt::Result {
        let Met { operation, setting, below } = self;
        write!(f, "{} {setting}", OPERATIONS[*operation].name)?;
        match below {
            Some(false) => write!(f, ", the object not at or below its driver"),
            _ => Ok(()),
        }
    }
}

// -------------------------------------------------------------- from a call to it

/// What a call finds: its facts, the test apart, and the flows that it may record.
struct Found {
    facts: Facts,
    below: Option<bool>,
    flows: [Option<(Number, Number)>; 2],
}

impl Found {
    fn met(&self, request: Request) -> Option<Met> {
        let operation = CODES.iter().position(|&code| code == request.code)?;
        Some(Met { operation, setting: setting_of(self.facts), below: self.below })
    }
}

/// Looks at a state; nothing is found where a number names the wrong thing.
struct Look<'a> {
    state: &'a State,
    order: &'a Order,
}

impl Look<'_> {
    fn found(&self, request: Request) -> Option<Found> {
        let Request { code, a, b, c, e, .. } = request;
        match code {
            code::READ => self.read(a, b, c),
            code::WRITE => self.write(a, b, c),
            code::MOVE => self.moved(a, b, c, e),
            code::DELETE => self.deleted(a, b, c),
            code::CALL => self.called(a, b),
            code::INVOKE => self.invoked(a, b),
            code::PASS => self.relayed(a, b, (b, c)),
            code::POST => self.relayed(c, b, (a, c)),
            _ => None,
        }
    }

    /// At or below.
    fn le(&self, a: u16, b: u16) -> bool {
        at_or_below(self.order, a, b)
    }

    fn three(&self, e: Number, d: Number, o: Number) -> Option<(Task, Task, Object)> {
        Some((self.state.task(e).ok()?, self.state.task(d).ok()?, self.state.object(o).ok()?))
    }

    fn read(&self, e: Number, d: Number, o: Number) -> Option<Found> {
        let (task, driver, object) = self.three(e, d, o)?;
        let facts = [
            self.le(task.level, driver.level),
            self.le(task.read_level, driver.level),
            self.le(task.level, object.level),
            self.le(task.read_level, object.level),
            driver.is_marked(),
            task.is_marked(),
        ];
        let below = Some(self.le(object.level, driver.level));
        Some(Found { facts, below, flows: [Some((o, e)), Some((d, e))] })
    }

    fn write(&self, e: Number, d: Number, o: Number) -> Option<Found> {
        let (task, driver, object) = self.three(e, d, o)?;
        let facts = of([self.le(object.level, task.level), driver.is_marked()]);
        let below = Some(self.le(object.level, driver.level));
        Some(Found { facts, below, flows: [Some((e, o)), Some((e, d))] })
    }

    fn moved(&self, e: Number, d: Number, o: Number, to: Number) -> Option<Found> {
        let (task, driver, object) = self.three(e, d, o)?;
        let into = self.le(object.level, self.state.object(to).ok()?.level);
        let facts = of([self.le(object.level, task.level), into, driver.is_marked()]);
        let below = Some(self.le(object.level, driver.level));
        Some(Found { facts, below, flows: [Some((e, o)), Some((e, d))] })
    }

    fn deleted(&self, e: Number, d: Number, o: Number) -> Option<Found> {
        let found = self.write(e, d, o)?;
        Some(Found { flows: [Some((e, d)), None], ..found })
    }

    fn called(&self, a: Number, b: Number) -> Option<Found> {
        let (caller, callee) = (self.state.task(a).ok()?, self.state.task(b).ok()?);
        let facts = of([
            self.le(caller.level, callee.level),
            self.le(caller.read_level, callee.level),
            caller.is_marked(),
            callee.is_marked(),
        ]);
        Some(Found { facts, below: None, flows: [Some((b, a)), Some((a, b))] })
    }

    fn invoked(&self, a: Number, b: Number) -> Option<Found> {
        let (invoker, invokee) = (self.state.task(a).ok()?, self.state.task(b).ok()?);
        let facts = of([self.le(invokee.level, invoker.level), invoker.is_marked()]);
        Some(Found { facts, below: None, flows: [Some((a, b)), Some((b, a))] })
    }

    /// A task's read of an object goes on.
    fn relayed(&self, task: Number, object: Number, flow: (Number, Number)) -> Option<Found> {
        let (task, object) = (self.state.task(task).ok()?, self.state.object(object).ok()?);
        let driver = self.state.task(object.driver).ok()?;
        let facts = of([
            self.le(task.level, object.level),
            self.le(task.read_level, object.level),
            self.le(task.level, driver.level),
            self.le(task.read_level, driver.level),
            task.is_marked(),
        ]);
        Some(Found { facts, below: None, flows: [Some(flow), None] })
    }
}

/// These facts and no others.
fn of<const N: usize>(first: [bool; N]) -> Facts {
    std::array::from_fn(|fact| first.get(fact).copied().unwrap_or(false))
}

/// What a call will do by the table, if it comes to its level tests.
pub struct Foreseen {
    met: Met,
    request: Request,
    /// The flows that it records.
    recorded: BTreeSet<(Number, Number)>,
    /// How many flows there are before the call, and how many after it.
    flows: [usize; 2],
}

impl Foreseen {
    /// On the state before the call.
    pub fn of(state: &State, order: &Order, request: Request) -> Option<Foreseen> {
        let found = Look { state, order }.found(request)?;
        let met = found.met(request)?;
        let told = met.entry().flows.into_iter().zip(found.flows);
        let recorded = told.filter_map(|(is, flow)| flow.filter(|_| is));
        let recorded: BTreeSet<_> = recorded.collect();
        let before = state.flows.len();
        let flows = [before, before + recorded.difference(&state.flows).count()];
        Some(Foreseen { met, request, recorded, flows })
    }

    /// The setting that the call met, if it came to its level tests. Then its verdict and the
    /// flows after it must be the table's, save that a deletion may be refused later, and
    /// records more.
    pub fn judged(self, verdict: u8, after: &State) -> Option<Met> {
        let Foreseen { met, request, recorded, flows: [before, done] } = self;
        let entry = met.entry();
        let told = match verdict {
            0 | 1 | 10 | 11 => verdict,
            12 | 16 => Verdict::Granted as u8,
            _ => return None,
        };
        let at = || format!("in the setting {met} of {request:?} the table has {entry:?}");
        assert_eq!(told, entry.verdict as u8, "{}", at());
        let standing = after.flows.len();
        let all = recorded.is_subset(&after.flows);
        let flows = match verdict {
            0 if request.code == code::DELETE => all,
            0 | 1 => all && standing == done,
            _ => standing == before,
        };
        assert!(flows, "{}, and other flows are recorded", at());
        Some(met)
    }
}

// ------------------------------------------------------------------- how many

/// How often each setting was met.
#[derive(Clone, Debug, Default)]
pub struct Settings(BTreeMap<Met, u64>);

impl Settings {
    pub fn count(&mut self, met: Met) {
        *self.0.entry(met).or_default() += 1;
    }

    pub fn add(&mut self, other: &Settings) {
        for (&met, count) in &other.0 {
            *self.0.entry(met).or_default() += count;
        }
    }

    /// Those that were met.
    pub fn met(&self) -> BTreeSet<Met> {
        self.0.keys().copied().collect()
    }

    /// Panics unless each of these was met, and no other; says how many they are, and which
    /// was the rarest.
    pub fn must_be(&self, possible: &BTreeSet<Met>, place: &str) {
        let met = self.met();
        let missing = possible.difference(&met).map(|met| format!("{met}: never met"));
        let more = met.difference(possible).map(|met| format!("{met}: is not among them"));
        let faults: Vec<String> = missing.chain(more).collect();
        assert!(faults.is_empty(), "the settings {place}:\n{}", faults.join("\n"));
        let rarest = self.0.iter().min_by_key(|(_, count)| **count);
        let rarest = rarest.map_or("none".into(), |(met, count)| format!("{met} ({count})"));
        println!("of the settings {place}, {} are met, the rarest: {rarest}", counted(&met));
    }
}

/// How many of the table's settings these are, and how many with the test apart.
pub fn counted(met: &BTreeSet<Met>) -> String {
    let settings: BTreeSet<_> = met.iter().map(|met| (met.operation, met.setting)).collect();
    let all = OPERATIONS.len() * SETTINGS;
    format!("{} of {all}, with the test apart {},", settings.len(), met.len())
}
