//! The tallies of the second paper: a record for each number, and whom a call counts on.

use super::{Model, Number, State, THINGS};
use tupehiwo::ffi::{Request, Tally, code};

/// "A lent list of 128."
pub type Tallies = [Tally; THINGS];

pub const NOTHING_COUNTED: Tallies = [Tally { granted: 0, slipped: 0, refused: 0 }; THINGS];

impl State {
    /// "The task that asks": the call's first number, if it names a task. "Start, load, mark,
    /// step and spread count on record 0", and so does a code that names no call.
    pub fn asker(&self, request: Request) -> Option<Number> {
        let asks = (code::READ..=code::FIND).contains(&request.code);
        Some(request.a).filter(|&first| asks && self.task(first).is_ok())
    }
}

impl Model {
    /// One more of a verdict, for the asker if there is one. "A granted start or load zeroes
    /// the list, then counts itself."
    pub(super) fn count(&mut self, beginning: bool, asker: Option<Number>, verdict: u8) {
        if beginning && verdict == 0 {
            self.tallies = NOTHING_COUNTED;
        }
        // "And so does a call refused with 2 or 3."
        let asker = asker.filter(|_| ![2, 3].contains(&verdict));
        raise(&mut self.tallies[usize::from(asker.unwrap_or(0))], verdict);
    }
}

/// Raises the count of a verdict, up to where counts stop.
fn raise(tally: &mut Tally, verdict: u8) {
    let count = match verdict {
        0 => &mut tally.granted,
        1 => &mut tally.slipped,
        _ => &mut tally.refused,
    };
    *count = count.saturating_add(1);
}
