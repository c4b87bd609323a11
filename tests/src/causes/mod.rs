//! Why a call got its verdict, where several causes share one: which number was
//! unfit and how, which access was missing, which test of the bytes broke.
//!
//! A cause is told only where it is the single one of its row of the paper's
//! table: a monitor without that one test would have answered otherwise.

mod deletions;
mod events;
mod loads;
mod memory;
mod numbers;

pub use deletions::{DELETED, FEEDS};
pub use events::{MOVED, NESTED};
pub use loads::Loaded;
pub use numbers::how_many;

use std::collections::{BTreeMap, BTreeSet};
use std::fmt;

use crate::model::{Lengths, State};
use crate::table::{CALLS, UNKNOWN, VERDICTS};
use tupehiwo::ffi::{Order, Request, code};

/// What was judged, and what it was like.
pub type Reason = (&'static str, &'static str);

#[derive(Clone, Copy, Debug, PartialEq, Eq, PartialOrd, Ord)]
pub struct Cause {
    pub verdict: u8,
    /// A row of the table of calls; `None` where it is the same for all of them.
    pub call: Option<usize>,
    /// Whether a load gave this verdict: the call is then the one of its layout that
    /// was refused, and `None` where it came to none.
    pub loading: bool,
    pub reason: Reason,
}

impl fmt::Display for Cause {
    fn fmt(&self, f: &mut fmt::Formatter<'_>) -> fmt::Result {
        let call = self.call.map_or("any call", |call| CALLS[call]);
        let call = if self.loading { format!("load, {call}") } else { call.to_string() };
        let (what, how) = self.reason;
        write!(f, "{call}, {}: {what}, {how}", VERDICTS[usize::from(self.verdict)])
    }
}

/// A call as it was made. A deletion is judged on the state that it met, any other call on
/// the one that it left: what is looked at there, it does not change.
pub struct Made<'a> {
    pub state: &'a State,
    pub lengths: Lengths,
    pub order: &'a Order,
    pub request: Request,
}

impl Made<'_> {
    /// The single cause of its verdict, if there is one.
    pub fn cause(&self, verdict: u8) -> Option<Cause> {
        let call = Some(usize::from(self.request.code).min(UNKNOWN));
        let starting = self.request.code == code::START;
        let (call, reason) = match verdict {
            2 => (None, memory::cause(self.state, self.lengths, self.order, starting)?),
            3 => (Some(code::START.into()).filter(|_| starting), memory::order_cause(self.order)?),
            4 | 5 | 9 => (call, numbers::cause(self, verdict)?),
            0 | 11.. if self.request.code == code::DELETE => {
                (call, deletions::cause(self, verdict)?)
            }
            _ => (call, events::cause(self, verdict)?),
        };
        Some(Cause { verdict, call, loading: false, reason })
    }

    fn arguments(&self) -> [u16; 5] {
        let Request { a, b, c, d, e, .. } = self.request;
        [a, b, c, d, e]
    }
}

/// Every cause that there can be.
pub fn all() -> BTreeSet<Cause> {
    let memory = memory::all().into_iter().map(|reason| (2, None, reason));
    let orders = memory::all_of_orders();
    let orders = orders.into_iter().map(|(starting, reason)| {
        let call = starting.then_some(code::START.into());
        (3, call, reason)
    });
    let of_calls = numbers::all().into_iter().chain(events::all()).chain(deletions::all());
    let of_calls = of_calls.map(|(verdict, code, reason)| (verdict, Some(code.into()), reason));
    let causes = memory.chain(orders).chain(of_calls);
    let cause = |(verdict, call, reason)| Cause { verdict, call, loading: false, reason };
    let mut all: BTreeSet<Cause> = causes.map(cause).collect();
    all.extend(loads::all());
    all
}

/// How often each cause occurred.
#[derive(Clone, Debug, Default)]
pub struct Causes(BTreeMap<Cause, u64>);

impl Causes {
    pub fn count(&mut self, cause: Cause) {
        *self.0.entry(cause).or_default() += 1;
    }

    pub fn add(&mut self, other: &Causes) {
        for (&cause, count) in &other.0 {
            *self.0.entry(cause).or_default() += count;
        }
    }

    /// How often this verdict had a cause that was like this.
    pub fn times(&self, verdict: u8, like: &str) -> u64 {
        let alike = |cause: &Cause| cause.verdict == verdict && cause.reason.1 == like;
        self.0.iter().filter(|(cause, _)| alike(cause)).map(|(_, count)| count).sum()
    }

    /// Panics unless each cause that there can be occurred, and no other.
    pub fn must_be_complete(&self) {
        let all = all();
        let missing = all.iter().filter(|cause| !self.0.contains_key(cause));
        let mut faults: Vec<String> = missing.map(|cause| format!("{cause}: never")).collect();
        let more = self.0.keys().filter(|cause| !all.contains(cause));
        faults.extend(more.map(|cause| format!("{cause}: is not in the list")));
        assert!(faults.is_empty(), "the causes of verdicts:\n{}", faults.join("\n"));
    }

    /// How many causes occurred, and how often the rarest did.
    pub fn summary(&self) -> String {
        let rarest = self.0.iter().min_by_key(|(_, count)| **count);
        let rarest = rarest.map_or("none".into(), |(cause, count)| format!("{cause} ({count})"));
        format!("{} causes of verdicts, the rarest: {rarest}", self.0.len())
    }
}

impl fmt::Display for Causes {
    fn fmt(&self, f: &mut fmt::Formatter<'_>) -> fmt::Result {
        self.0.iter().try_for_each(|(cause, count)| writeln!(f, "{count:>9} {cause}"))
    }
}

/// The only one, if there is only one.
fn single<T>(mut all: impl Iterator<Item = T>) -> Option<T> {
    let first = all.next()?;
    all.next().is_none().then_some(first)
}
