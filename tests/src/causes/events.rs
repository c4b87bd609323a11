//! The verdicts of the events themselves: which place, access, flow or level test
//! failed, or what let the call through.

use super::{Made, Reason, single};
use crate::model::{Number, THINGS, Task, at_or_below};
use tupehiwo::ffi::{Order, code};

/// The things that must differ, and where an object has to be.
const PLACES: [Reason; 5] = [
    ("object", "a root"),
    ("object", "in another container"),
    ("object", "equal to the first container"),
    ("object", "equal to the second container"),
    ("containers", "equal"),
];

/// How a move's second container lies inside the object.
pub const NESTED: [Reason; 3] = [
    ("second container", "in the object"),
    ("second container", "deeper inside the object"),
    ("second container", "inside the object, as is the object itself"),
];

/// What has to be recorded, in the order of `recorded`.
const HELD: [(u16, &[Reason]); 6] = [
    (code::CREATE, &[("creator", "to the container"), ("driver", "to the container")]),
    (
        code::MOVE,
        &[("task", "to from"), ("task", "to to"), ("driver", "to from"), ("driver", "to to")],
    ),
    (code::DELETE, &[("task", "to the container"), ("driver", "to the container")]),
    (code::PASS, &[("flow", "z to y"), ("read", "of x by z")]),
    (code::POST, &[("flow", "x to z"), ("read", "of z by y")]),
    (code::FIND, &[("flow", "x to z"), ("flow", "z to y")]),
];

/// How a level is not at or below another.
pub const FAILS: [&str; 2] = ["above", "unrelated"];

/// How neither a level nor a read level is at or below another.
const BOTH_FAIL: [&str; 4] = [
    "both above",
    "level above, read level unrelated",
    "level unrelated, read level above",
    "both unrelated",
];

/// Whose level is too low for a rule. "Slipping" is where the honest test fails too,
/// under a marked driver.
const RULES: [(u16, &[&str]); 9] = [
    (code::READ, &["driver", "driver, slipping"]),
    (code::WRITE, &["driver", "driver, slipping", "task"]),
    (code::EXECUTE, &["image", "the new task itself"]),
    (code::CREATE, &["creator", "container", "driver"]),
    (code::CREATE_ROOT, &["creator", "driver"]),
    (code::MOVE, &["driver", "driver, slipping", "to", "to, slipping", "task"]),
    (code::INVOKE, &["invoker"]),
    (code::PASS, &["object", "driver"]),
    (code::POST, &["object", "driver"]),
];

const STILL: [&str; 5] =
    ["marked", "marked and fed", "unfed", "fed by the unmarked", "unfed, its driver marked"];

const READ_BY: [&str; 3] =
    ["by levels", "the object by the read level alone", "by the read level alone"];
const SLIPPED_BY: [&str; 2] = ["slipped", "slipped, the driver by the read level alone"];
const CALLED_BY: [&str; 2] = ["by levels", "by the read level alone"];
/// Where a granted move leads.
pub const MOVED: [&str; 3] =
    ["into a root", "into what lies in others", "into or towards a circle"];
const PASSED: [&str; 3] = ["safe", "safe, marked", "risky, marked"];
const MARKED: [&str; 4] = ["none marked", "asker marked", "other marked", "both marked"];
const STEPPED: [&str; 2] = ["a task", "an object"];

/// Every cause of these verdicts, with its call's code.
pub fn all() -> Vec<(u8, u16, Reason)> {
    let mut all = Vec::new();
    all.extend(PLACES.iter().chain(&NESTED).map(|&reason| (7, code::MOVE, reason)));
    all.extend(PLACES[..3].iter().map(|&reason| (7, code::DELETE, reason)));
    for (code, reasons) in HELD {
        all.extend(reasons.iter().map(|&reason| (8, code, reason)));
    }
    for code in [code::READ, code::CALL] {
        all.extend(BOTH_FAIL.map(|how| (10, code, ("path", how))));
    }
    for (code, names) in RULES {
        all.extend(names.iter().flat_map(|&name| FAILS.map(|how| (11, code, (name, how)))));
    }
    // An object above a driver that the task reaches is honest for the task.
    all.retain(|&cause| cause != (11, code::READ, ("driver, slipping", FAILS[0])));
    all.extend(BOTH_FAIL.map(|how| (11, code::READ, ("object", how))));
    all.extend(STILL.map(|how| (13, code::STEP, ("x", how))));
    all.extend(all_done());
    all
}

fn all_done() -> Vec<(u8, u16, Reason)> {
    let mut all = Vec::new();
    for marked in MARKED {
        all.extend(READ_BY.map(|how| (0, code::READ, (marked, how))));
        all.extend(CALLED_BY.map(|how| (0, code::CALL, (marked, how))));
    }
    for marked in &MARKED[2..] {
        all.extend(SLIPPED_BY.map(|how| (1, code::READ, (*marked, how))));
    }
    use code::{CREATE, CREATE_ROOT, EXECUTE, INVOKE, WRITE};
    for marked in [MARKED[0], MARKED[2]] {
        let codes = [WRITE, EXECUTE, CREATE, CREATE_ROOT, INVOKE];
        all.extend(codes.map(|code| (0, code, (marked, "done"))));
        all.extend(MOVED.map(|how| (0, code::MOVE, (marked, how))));
    }
    for code in [code::PASS, code::POST] {
        all.extend(PASSED.map(|how| (0, code, ("read", how))));
    }
    all.extend(STEPPED.map(|how| (0, code::STEP, ("x", how))));
    all
}

pub fn cause(made: &Made, verdict: u8) -> Option<Reason> {
    match verdict {
        0 | 1 => done(made, verdict),
        7 => place(made),
        8 => held(made),
        10 => path(made),
        11 => single(broken_rules(made)?.into_iter()),
        13 => Some(("x", still(made))),
        _ => None,
    }
}

/// The other calls with verdict 7 have one cause of it each.
fn place(made: &Made) -> Option<Reason> {
    let [_, _, object, from, to] = made.arguments();
    let moving = match made.request.code {
        code::MOVE => true,
        code::DELETE => false,
        _ => return None,
    };
    let container = made.state.object(object).ok()?.container;
    let inside = container == Some(from);
    let nested = moving && made.state.inside(object).contains(&to);
    match (object == from, moving && object == to, moving && from == to, nested) {
        (true, false, false, false) => Some(PLACES[2]),
        (false, true, false, false) if inside => Some(PLACES[3]),
        (false, false, true, false) if inside => Some(PLACES[4]),
        (false, false, false, true) if inside => Some(nested_in(made, object, to)),
        (false, false, false, false) => Some(PLACES[usize::from(container.is_some())]),
        _ => None,
    }
}

fn nested_in(made: &Made, object: Number, to: Number) -> Reason {
    let next = made.state.containers(to).next();
    match made.state.is_in_itself(object) {
        true => NESTED[2],
        false => NESTED[usize::from(next != Some(object))],
    }
}

fn held(made: &Made) -> Option<Reason> {
    let (_, names) = HELD.iter().find(|(code, _)| *code == made.request.code)?;
    let recorded = recorded(made);
    single(names.iter().zip(recorded).filter(|(_, held)| !held).map(|(&name, _)| name))
}

fn recorded(made: &Made) -> Vec<bool> {
    let [a, b, c, d, e] = made.arguments();
    let flow = |from, to| made.state.flows.contains(&(from, to));
    let read = |task, object| made.state.reads.contains(&(task, object));
    let write = |task, object| made.state.writes.contains(&(task, object));
    match made.request.code {
        code::MOVE => vec![write(a, d), write(a, e), write(b, d), write(b, e)],
        code::PASS => vec![flow(a, c), read(a, b)],
        code::POST => vec![flow(a, b), read(c, b)],
        code::FIND => vec![flow(a, b), flow(b, c)],
        _ => vec![write(a, d), write(b, d)],
    }
}

fn path(made: &Made) -> Option<Reason> {
    let [asker, other, ..] = made.arguments();
    let level = made.state.task(other).ok()?.level;
    Some(("path", neither(made.order, made.state.task(asker).ok()?, level)?))
}

/// How level a is not at or below b; `None` if it is.
pub fn fails(order: &Order, a: u16, b: u16) -> Option<&'static str> {
    let above = at_or_below(order, b, a);
    (!at_or_below(order, a, b)).then_some(FAILS[usize::from(!above)])
}

/// How neither level of a task is at or below another; `None` if one is.
fn neither(order: &Order, task: Task, level: u16) -> Option<&'static str> {
    let (by_level, by_read) =
        (fails(order, task.level, level)?, fails(order, task.read_level, level)?);
    let unrelated = |how| usize::from(how == FAILS[1]);
    Some(BOTH_FAIL[2 * unrelated(by_level) + unrelated(by_read)])
}

/// The level tests of verdict 11 that fail, and how.
fn broken_rules(made: &Made) -> Option<Vec<Reason>> {
    let [a, b, c, d, e] = made.arguments();
    let fails = |a, b| fails(made.order, a, b);
    let task = |n: Number| made.state.task(n).ok().map(|task| task.level);
    let object = |n: Number| made.state.object(n).ok().map(|object| object.level);
    let tests = match made.request.code {
        code::READ | code::WRITE | code::MOVE => return broken_for_driver(made),
        code::EXECUTE => {
            vec![("image", fails(d, object(b)?)), ("the new task itself", fails(e, d))]
        }
        code::CREATE => vec![
            ("creator", fails(e, task(a)?)),
            ("container", fails(e, object(d)?)),
            ("driver", fails(e, task(b)?)),
        ],
        code::CREATE_ROOT => vec![("creator", fails(d, task(a)?)), ("driver", fails(d, task(b)?))],
        code::INVOKE => vec![("invoker", fails(task(b)?, task(a)?))],
        code::PASS => risky_halves(made, a, b)?,
        _ => risky_halves(made, c, b)?,
    };
    Some(tests.into_iter().filter_map(|(name, how)| how.map(|how| (name, how))).collect())
}

/// Those of read, write and move: the honest test counts under an unmarked driver.
fn broken_for_driver(made: &Made) -> Option<Vec<Reason>> {
    let [asker, driver, object, _, to] = made.arguments();
    let (task, driver) = (made.state.task(asker).ok()?, made.state.task(driver).ok()?);
    let object = made.state.object(object).ok()?;
    let order = made.order;
    let honest = match made.request.code {
        code::READ => neither(order, task, object.level).map(|how| ("object", how)),
        _ => fails(order, object.level, task.level).map(|how| ("task", how)),
    };
    let slipping = honest.is_some() && driver.is_marked();
    let named = |name, slip| if slipping { slip } else { name };
    let by_driver = fails(order, object.level, driver.level);
    let mut broken: Vec<Reason> =
        by_driver.map(|how| (named("driver", "driver, slipping"), how)).into_iter().collect();
    if made.request.code == code::MOVE {
        let target = made.state.object(to).ok()?;
        let by_target = fails(order, object.level, target.level);
        broken.extend(by_target.map(|how| (named("to", "to, slipping"), how)));
    }
    broken.extend(honest.filter(|_| !slipping));
    Some(broken)
}

/// Which halves of a read are risky: those that the level forbids and the read
/// level allows.
fn risky_halves(
    made: &Made,
    reader: Number,
    object: Number,
) -> Option<Vec<(&'static str, Option<&'static str>)>> {
    let (task, object) = (made.state.task(reader).ok()?, made.state.object(object).ok()?);
    let driver = made.state.task(object.driver).ok()?;
    let risk = |level| {
        let allowed = at_or_below(made.order, task.read_level, level);
        fails(made.order, task.level, level).filter(|_| allowed)
    };
    Some(vec![("object", risk(object.level)), ("driver", risk(driver.level))])
}

fn still(made: &Made) -> &'static str {
    let x = made.request.a;
    let state = made.state;
    let mut sources = state.flows.iter().filter(|&&(_, to)| to == x).map(|&(from, _)| from);
    let driven = state.object(x).is_ok_and(|object| state.is_marked(object.driver));
    match state.is_marked(x) {
        true => STILL[usize::from(sources.any(|from| state.is_marked(from)))],
        false if driven => STILL[4],
        false => STILL[2 + usize::from(sources.next().is_some())],
    }
}

/// What let a call through, where the paper has it record this or that.
fn done(made: &Made, verdict: u8) -> Option<Reason> {
    let [a, b, c, ..] = made.arguments();
    let marked = |n| made.state.is_marked(n);
    let pair = |asker, other| MARKED[2 * usize::from(marked(other)) + usize::from(marked(asker))];
    let other = |n| MARKED[2 * usize::from(marked(n))];
    match made.request.code {
        code::READ => Some((pair(a, b), read_by(made, verdict)?)),
        code::CALL => {
            let (caller, callee) = (made.state.task(a).ok()?, made.state.task(b).ok()?);
            let alone = !at_or_below(made.order, caller.level, callee.level);
            Some((pair(a, b), CALLED_BY[usize::from(alone)]))
        }
        code::INVOKE => Some((other(a), "done")),
        code::PASS => Some(("read", passed(made, a, b)?)),
        code::POST => Some(("read", passed(made, c, b)?)),
        code::STEP => Some(("x", STEPPED[usize::from(made.state.object(a).is_ok())])),
        code::WRITE | code::MOVE if verdict == 1 => None,
        code::MOVE => Some((other(b), moved(made))),
        code::START | code::FIND | code::MARK | code::SPREAD => None,
        _ => Some((other(b), "done")),
    }
}

fn read_by(made: &Made, verdict: u8) -> Option<&'static str> {
    let [asker, driver, object, ..] = made.arguments();
    let task = made.state.task(asker).ok()?;
    let fails = |level| !at_or_below(made.order, task.level, level);
    let driver = usize::from(fails(made.state.task(driver).ok()?.level));
    let object = usize::from(fails(made.state.object(object).ok()?.level));
    Some(if verdict == 1 { SLIPPED_BY[driver] } else { READ_BY[driver + object] })
}

/// What its new container lies in, a move leaves alone.
fn moved(made: &Made) -> &'static str {
    match made.state.containers(made.request.e).take(THINGS).count() {
        0 => MOVED[0],
        THINGS => MOVED[2],
        _ => MOVED[1],
    }
}

fn passed(made: &Made, reader: Number, object: Number) -> Option<&'static str> {
    let risky = risky_halves(made, reader, object)?.iter().any(|(_, risk)| risk.is_some());
    let marked = made.state.is_marked(reader);
    Some(PASSED[usize::from(marked) + usize::from(risky)])
}
