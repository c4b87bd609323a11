//! The verdicts of a deletion from the level tests on: what comes before the flows of the
//! object, whom these keep it for, and what it feeds where it may go.

use std::collections::BTreeSet;

use super::events::{FAILS, fails};
use super::{Made, Reason, single};
use crate::model::{Number, State, Thing};
use tupehiwo::ffi::code;

/// Whose level is too low; "feeding" is where the object's flows would keep it too.
const RULES: [[&str; 2]; 2] = [["task", "task, feeding"], ["driver", "driver, feeding"]];
const FILLED: [Reason; 2] = [("object", "filled"), ("object", "filled and feeding")];

const DRIVERS: [&str; 2] = ["driver unmarked", "driver marked"];
/// Whom a marked object feeds that is unmarked, if it is this alone.
pub const FEEDS: [&str; 5] =
    ["its driver", "the task that asks", "another task", "its container", "another object"];

const MARKED: [&str; 4] = ["none marked", "driver marked", "object marked", "both marked"];
/// What an object that may go feeds, if it is this alone. A marked one does not feed the
/// last.
pub const DELETED: [&str; 5] = [
    "feeding nothing",
    "feeding itself",
    "feeding free numbers",
    "feeding the marked",
    "feeding the unmarked",
];

/// Every cause of these verdicts, with its call's code.
pub fn all() -> Vec<(u8, u16, Reason)> {
    let names = RULES.into_iter().flatten();
    let rules = names.flat_map(|name| FAILS.map(|how| (11, (name, how))));
    let filled = FILLED.map(|reason| (12, reason));
    // A marked driver is none of the unmarked.
    let unmarked = FEEDS.map(|whom| (16, (DRIVERS[0], whom)));
    let marked = FEEDS[1..].iter().map(|&whom| (16, (DRIVERS[1], whom)));
    let gone = MARKED.into_iter().flat_map(|marked| DELETED.map(|what| (0, (marked, what))));
    let may_go =
        |&(_, (marked, what)): &(u8, Reason)| what != DELETED[4] || MARKED[..2].contains(&marked);
    let all = rules.chain(filled).chain(unmarked).chain(marked).chain(gone.filter(may_go));
    all.map(|(verdict, reason)| (verdict, code::DELETE, reason)).collect()
}

pub fn cause(made: &Made, verdict: u8) -> Option<Reason> {
    let [_, driver, object, ..] = made.arguments();
    let marked = |n: Number| usize::from(made.state.is_marked(n));
    let feeding = usize::from(is_feeding(made.state, object));
    match verdict {
        11 => single(broken_rules(made, feeding)?.into_iter()),
        12 => Some(FILLED[feeding]),
        16 => Some((DRIVERS[marked(driver)], kept_for(made)?)),
        _ => Some((MARKED[2 * marked(object) + marked(driver)], gone(made.state, object)?)),
    }
}

/// Whether its flows alone would keep an object.
fn is_feeding(state: &State, object: Number) -> bool {
    state.is_marked(object) && state.fed_by(object).iter().any(|&n| !state.is_marked(n))
}

fn broken_rules(made: &Made, feeding: usize) -> Option<Vec<Reason>> {
    let [task, driver, object, ..] = made.arguments();
    let level = made.state.object(object).ok()?.level;
    let fails = |n| Some(fails(made.order, level, made.state.task(n).ok()?.level));
    let tests = [(RULES[0], fails(task)?), (RULES[1], fails(driver)?)].into_iter();
    Some(tests.filter_map(|(names, how)| how.map(|how| (names[feeding], how))).collect())
}

fn kept_for(made: &Made) -> Option<&'static str> {
    let [asker, driver, object, container, _] = made.arguments();
    let fed = made.state.fed_by(object).into_iter().filter(|&n| !made.state.is_marked(n));
    let whom = |n: Number| match made.state.things[usize::from(n)] {
        _ if n == driver => FEEDS[0],
        _ if n == asker => FEEDS[1],
        Thing::Task(_) => FEEDS[2],
        _ if n == container => FEEDS[3],
        _ => FEEDS[4],
    };
    single(fed.map(whom).collect::<BTreeSet<_>>().into_iter())
}

fn gone(state: &State, object: Number) -> Option<&'static str> {
    let ends = state.flows.range((object, 0)..=(object, Number::MAX)).map(|&(_, end)| end);
    let what = |n: Number| match state.thing(n) {
        _ if n == object => DELETED[1],
        Err(_) => DELETED[2],
        Ok(thing) => DELETED[if thing.is_marked() { 3 } else { 4 }],
    };
    let all: BTreeSet<&str> = ends.map(what).collect();
    if all.is_empty() { Some(DELETED[0]) } else { single(all.into_iter()) }
}
