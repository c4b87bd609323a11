//! Verdicts 4, 5 and 9: which number or level was unfit, and how.

use super::{Made, Reason, single};
use crate::model::{State, Thing};
use tupehiwo::ffi::code;

/// What a number of a call must name.
#[derive(Clone, Copy, PartialEq, Eq)]
enum Sort {
    Task,
    Object,
    Thing,
    New,
    Level,
}

use Sort::{Level, New, Object, Task};

/// The numbers of each call, by its code.
const NUMBERS: [&[(&str, Sort)]; 16] = [
    &[],
    &[("task", Task), ("driver", Task), ("object", Object)],
    &[("task", Task), ("driver", Task), ("object", Object)],
    &[("creator", Task), ("image", Object), ("new", New), ("level", Level), ("read level", Level)],
    &[("creator", Task), ("driver", Task), ("new", New), ("container", Object), ("level", Level)],
    &[("creator", Task), ("driver", Task), ("new", New), ("level", Level)],
    &[("task", Task), ("driver", Task), ("object", Object), ("from", Object), ("to", Object)],
    &[("task", Task), ("driver", Task), ("object", Object), ("container", Object)],
    &[("caller", Task), ("callee", Task)],
    &[("invoker", Task), ("invokee", Task)],
    &[("z", Task), ("x", Object), ("y", Sort::Thing)],
    &[("x", Task), ("z", Object), ("y", Task)],
    &[("x", Task), ("z", Task), ("y", Sort::Thing)],
    &[("task", Task)],
    &[("x", Sort::Thing)],
    &[],
];

const UNKNOWN: (u16, Reason) = (16, ("code", "unknown"));

const TOO_HIGH: [&str; 4] = ["128", "255", "65,535", "over 127"];
const FREE: &str = "free";
const WRONG_KIND: &str = "of the wrong kind";
const TAKEN: [&str; 3] = ["a task", "an object", "the object named beside it"];
const OFF_SCALE: [&str; 3] = ["the count", "65,535", "over the count"];

/// How many numbers a call takes; none for an unknown code.
pub fn how_many(code: u16) -> usize {
    NUMBERS.get(usize::from(code)).map_or(0, |numbers| numbers.len())
}

/// Every cause of verdicts 4, 5 and 9, with its call's code.
pub fn all() -> Vec<(u8, u16, Reason)> {
    let mut all = vec![(4, UNKNOWN.0, UNKNOWN.1)];
    for (code, numbers) in (0..).zip(NUMBERS) {
        for &(name, sort) in numbers {
            let mut may_be = |verdict, hows: &[&'static str]| {
                all.extend(hows.iter().map(|&how| (verdict, code, (name, how))));
            };
            if sort != Level {
                may_be(4, &TOO_HIGH);
            }
            match sort {
                Task | Object => may_be(4, &[FREE, WRONG_KIND]),
                Sort::Thing => may_be(4, &[FREE]),
                New if code == code::CREATE_ROOT => may_be(5, &TAKEN[..2]),
                New => may_be(5, &TAKEN),
                Level => may_be(9, &OFF_SCALE),
            }
        }
    }
    all
}

pub fn cause(made: &Made, verdict: u8) -> Option<Reason> {
    let Some(numbers) = NUMBERS.get(usize::from(made.request.code)) else {
        return Some(UNKNOWN.1);
    };
    let named = numbers.iter().zip(made.arguments());
    let unfit = named.filter_map(|(&(name, sort), n)| {
        let how = match verdict {
            4 => unfit_number(made.state, sort, n),
            5 => taken(made, sort, n),
            _ => off_scale(made.order.count, sort, n),
        };
        how.map(|how| (name, how))
    });
    single(unfit)
}

fn unfit_number(state: &State, sort: Sort, n: u16) -> Option<&'static str> {
    if sort == Level {
        return None;
    }
    let Some(thing) = state.things.get(usize::from(n)) else {
        let known = [128, 255, 65535].iter().position(|&known| known == n);
        return Some(TOO_HIGH[known.unwrap_or(3)]);
    };
    match (sort, thing) {
        (New, _) => None,
        (_, Thing::Free) => Some(FREE),
        (Task, Thing::Task(_)) | (Object, Thing::Object(_)) | (Sort::Thing, _) => None,
        _ => Some(WRONG_KIND),
    }
}

fn taken(made: &Made, sort: Sort, n: u16) -> Option<&'static str> {
    let [_, b, _, d, _] = made.arguments();
    let beside = match made.request.code {
        code::EXECUTE => Some(b),
        code::CREATE => Some(d),
        _ => None,
    };
    match made.state.thing(n).ok().filter(|_| sort == New)? {
        _ if beside == Some(n) => Some(TAKEN[2]),
        Thing::Task(_) => Some(TAKEN[0]),
        _ => Some(TAKEN[1]),
    }
}

fn off_scale(count: u16, sort: Sort, level: u16) -> Option<&'static str> {
    (sort == Level && level >= count).then(|| match level {
        _ if level == count => OFF_SCALE[0],
        65535 => OFF_SCALE[1],
        _ => OFF_SCALE[2],
    })
}
