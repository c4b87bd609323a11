//! How often each call gave each verdict, and which pairs cannot occur.

use std::ops::Range;
use std::panic::{self, AssertUnwindSafe};
use std::sync::atomic::{AtomicBool, Ordering};
use std::{fmt, thread};

use crate::causes::{Cause, Causes};
use crate::settings::Settings;
use tupehiwo::ffi::code;

/// The rows of the table: the codes, then what is no code.
pub const UNKNOWN: usize = 16;
pub const LOAD: usize = 17;
pub const REPORT: usize = 18;

pub const CALLS: [&str; 19] = [
    "start",
    "read",
    "write",
    "execute",
    "create",
    "root",
    "move",
    "delete",
    "call",
    "invoke",
    "pass",
    "post",
    "find",
    "mark",
    "step",
    "spread",
    "(unknown)",
    "load",
    "report",
];

/// The paper's words, each at the place of its number.
pub const VERDICTS: [&str; 17] = [
    "granted", "slipped", "state", "order", "number", "taken", "driver", "place", "held", "scale",
    "path", "rule", "filled", "still", "form", "deep", "feeding",
];

/// Which calls can give a verdict, and why no other can.
struct Possible {
    verdict: usize,
    calls: &'static [u16],
    why_no_other: &'static str,
}

const UNKNOWN_CODE: u16 = UNKNOWN as u16;
const LOADING: u16 = LOAD as u16;

/// The verdicts that not every call can give; 2 and 3 every call can.
const POSSIBLE: [Possible; 15] = [
    Possible {
        verdict: 0,
        calls: &[0, 1, 2, 3, 4, 5, 6, 7, 8, 9, 10, 11, 12, 13, 14, 15, LOADING, REPORT as u16],
        why_no_other: "an unknown code is an unfit number",
    },
    Possible {
        verdict: 1,
        calls: &[code::READ, code::WRITE, code::MOVE],
        why_no_other: "it has no test that only an honest driver enforces",
    },
    Possible {
        verdict: 4,
        calls: &[1, 2, 3, 4, 5, 6, 7, 8, 9, 10, 11, 12, 13, 14, UNKNOWN_CODE, LOADING],
        why_no_other: "it names no number",
    },
    Possible {
        verdict: 5,
        calls: &[code::EXECUTE, code::CREATE, code::CREATE_ROOT, LOADING],
        why_no_other: "it names no new number",
    },
    Possible {
        verdict: 6,
        calls: &[code::READ, code::WRITE, code::MOVE, code::DELETE],
        why_no_other: "it does not name a driver with an existing object, or names its own",
    },
    Possible {
        verdict: 7,
        calls: &[code::MOVE, code::DELETE, code::PASS, code::POST, code::FIND],
        why_no_other: "it takes nothing out of a container, and its things may be equal",
    },
    Possible {
        verdict: 8,
        calls: &[code::CREATE, code::MOVE, code::DELETE, code::PASS, code::POST, code::FIND],
        why_no_other: "it needs no recorded access or flow, or makes it",
    },
    Possible {
        verdict: 9,
        calls: &[code::EXECUTE, code::CREATE, code::CREATE_ROOT, LOADING],
        why_no_other: "it is given no level",
    },
    Possible { verdict: 10, calls: &[code::READ, code::CALL], why_no_other: "it has no path test" },
    Possible {
        verdict: 11,
        calls: &[
            code::READ,
            code::WRITE,
            code::EXECUTE,
            code::CREATE,
            code::CREATE_ROOT,
            code::MOVE,
            code::DELETE,
            code::INVOKE,
            code::PASS,
            code::POST,
            LOADING,
        ],
        why_no_other: "it has no level test but the path test, if any",
    },
    Possible { verdict: 12, calls: &[code::DELETE], why_no_other: "it deletes no container" },
    Possible { verdict: 13, calls: &[code::STEP], why_no_other: "it is no step" },
    Possible { verdict: 14, calls: &[LOADING], why_no_other: "it reads no text" },
    Possible { verdict: 15, calls: &[LOADING], why_no_other: "it reads no text" },
    Possible { verdict: 16, calls: &[code::DELETE], why_no_other: "it deletes nothing" },
];

/// Why a call cannot give a verdict, or `None` if it can.
fn impossible(call: usize, verdict: usize) -> Option<&'static str> {
    let limited = POSSIBLE.iter().find(|possible| possible.verdict == verdict)?;
    let can = limited.calls.iter().any(|&code| usize::from(code) == call);
    (!can).then_some(limited.why_no_other)
}

#[derive(Clone, Default)]
pub struct Table {
    counts: [[u64; VERDICTS.len()]; CALLS.len()],
    pub causes: Causes,
    /// Those of the decision table.
    pub settings: Settings,
}

impl Table {
    pub fn count_call(&mut self, code: u16, verdict: u8, cause: Option<Cause>) {
        let call = usize::from(code).min(UNKNOWN);
        self.counts[call][usize::from(verdict)] += 1;
        cause.into_iter().for_each(|cause| self.causes.count(cause));
    }

    pub fn count_load(&mut self, verdict: u8, cause: Option<Cause>) {
        self.counts[LOAD][usize::from(verdict)] += 1;
        cause.into_iter().for_each(|cause| self.causes.count(cause));
    }

    pub fn count_report(&mut self, verdict: u8) {
        self.counts[REPORT][usize::from(verdict)] += 1;
    }

    /// Calls counted, reports left out.
    pub fn calls(&self) -> u64 {
        self.counts[..REPORT].iter().flatten().sum()
    }

    pub fn add(&mut self, other: &Table) {
        for (mine, theirs) in self.counts.iter_mut().zip(&other.counts) {
            mine.iter_mut().zip(theirs).for_each(|(mine, theirs)| *mine += theirs);
        }
        self.causes.add(&other.causes);
        self.settings.add(&other.settings);
    }

    /// Panics unless each pair that can occur did, and no other.
    pub fn must_be_complete(&self) {
        let mut faults = Vec::new();
        for (call, row) in self.counts.iter().enumerate() {
            for (verdict, &count) in row.iter().enumerate() {
                let pair = format!("{} {}", CALLS[call], VERDICTS[verdict]);
                match impossible(call, verdict) {
                    None if count == 0 => faults.push(format!("{pair}: never occurred")),
                    Some(why) if count > 0 => faults.push(format!("{pair}: occurred, but {why}")),
                    _ => {}
                }
            }
        }
        assert!(faults.is_empty(), "the table of calls and verdicts:\n{}", faults.join("\n"));
    }
}

/// The tables of some numbered tests together, made by as many workers as can run
/// at once. They stop at the first failure.
pub fn sum_of(tests: Range<u64>, table_of: impl Fn(u64) -> Table + Sync) -> Table {
    let workers = thread::available_parallelism().map_or(1, usize::from);
    let failed = AtomicBool::new(false);
    let work = |worker: usize| {
        let mut table = Table::default();
        let own = tests.clone().skip(worker).step_by(workers);
        for number in own.take_while(|_| !failed.load(Ordering::Relaxed)) {
            let done = panic::catch_unwind(AssertUnwindSafe(|| table_of(number)));
            table.add(&done.unwrap_or_else(|failure| {
                failed.store(true, Ordering::Relaxed);
                panic::resume_unwind(failure)
            }));
        }
        table
    };
    let mut sum = Table::default();
    thread::scope(|scope| {
        let begin = |worker| scope.spawn(move || work(worker));
        for worker in (0..workers).map(begin).collect::<Vec<_>>() {
            sum.add(&worker.join().unwrap_or_else(|failure| panic::resume_unwind(failure)));
        }
    });
    sum
}

impl fmt::Display for Table {
    /// A dash stands where the pair cannot occur.
    fn fmt(&self, f: &mut fmt::Formatter<'_>) -> fmt::Result {
        write!(f, "{:>10}", "")?;
        VERDICTS.iter().try_for_each(|verdict| write!(f, "{verdict:>8}"))?;
        for (call, row) in self.counts.iter().enumerate() {
            write!(f, "\n{:>10}", CALLS[call])?;
            for (verdict, count) in row.iter().enumerate() {
                match impossible(call, verdict) {
                    Some(_) if *count == 0 => write!(f, "{:>8}", "-")?,
                    _ => write!(f, "{count:>8}")?,
                }
            }
        }
        Ok(())
    }
}
