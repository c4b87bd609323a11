//! Verdicts 2 and 3: which test of the bytes, of the lengths or of the order broke.

use std::collections::BTreeSet;

use super::{Reason, single};
use crate::model::{Lengths, State, at_or_below};
use tupehiwo::ffi::Order;

/// What a free number may not have, by the place of the byte.
const FREE: [&str; 8] = [
    "kind",
    "level not 0",
    "read level not 0",
    "driver not 0",
    "container not 0",
    "marks not 0",
    "first spare byte not 0",
    "second spare byte not 0",
];

/// What a task may not have.
const TASK: [&str; 8] = [
    "level not below the count",
    "read level not below the count",
    FREE[3],
    FREE[4],
    "marks 2",
    "marks over 3",
    FREE[6],
    FREE[7],
];

/// What an object may not have.
const OBJECT: [&str; 14] = [
    TASK[0],
    FREE[2],
    "driver 128 or more",
    "driver free",
    "driver an object",
    "container 128 or more",
    "container itself",
    "container free",
    "container a task",
    TASK[4],
    "marks 3",
    TASK[5],
    FREE[6],
    FREE[7],
];

/// What number 0 may not be.
const CORE: [&str; 3] = ["free", "an object", "not at the top"];

const LENGTHS: [Reason; 3] =
    [("length", "of the bytes"), ("length", "of the words"), ("length", "of the list")];
const KIND: Reason = ("record", "kind over 2");

/// Every cause of verdict 2.
pub fn all() -> Vec<Reason> {
    let mut all = vec![KIND];
    all.extend(LENGTHS);
    all.extend(FREE[1..].iter().map(|&how| ("free number", how)));
    all.extend(TASK.map(|how| ("task", how)));
    all.extend(OBJECT.map(|how| ("object", how)));
    all.extend(CORE.map(|how| ("core", how)));
    all
}

pub fn cause(state: &State, lengths: Lengths, order: &Order, starting: bool) -> Option<Reason> {
    let Lengths { bytes, words, tallies } = Lengths::RIGHT;
    let wrong = [lengths.bytes != bytes, lengths.words != words, lengths.tallies != tallies];
    let mut faults: BTreeSet<Reason> = LENGTHS
        .into_iter()
        .zip(wrong)
        .filter(|(_, wrong)| *wrong)
        .map(|(fault, _)| fault)
        .collect();
    if !starting {
        faults.extend(faults_of_bytes(state, order));
    }
    single(faults.into_iter())
}

/// What is wrong with the records, each by itself and beside the others.
fn faults_of_bytes(state: &State, order: &Order) -> Vec<Reason> {
    let records: Vec<[u8; 8]> = state.things.iter().map(|thing| thing.record()).collect();
    let kind = |n: u8| records.get(usize::from(n)).map(|record| record[0]);
    let mut faults = Vec::new();
    for (n, &record) in (0..).zip(&records) {
        let spare = (record[6..].iter().zip(&FREE[6..])).filter(|(byte, _)| **byte != 0);
        let spare = spare.map(|(_, &how)| how);
        let (what, hows): (_, Vec<&str>) = match record[0] {
            0 => ("free number", not_zero(&record)),
            1 => ("task", faults_of_task(&record, order.count).into_iter().chain(spare).collect()),
            2 => {
                let own = faults_of_object(n, &record, order.count, kind);
                ("object", own.into_iter().chain(spare).collect())
            }
            _ => (KIND.0, vec![KIND.1]),
        };
        faults.extend(hows.into_iter().map(|how| (what, how)));
    }
    faults.extend(fault_of_core(&records[0], order.top).map(|how| ("core", how)));
    faults
}

fn not_zero(record: &[u8; 8]) -> Vec<&'static str> {
    record.iter().zip(FREE).filter(|(byte, _)| **byte != 0).map(|(_, how)| how).collect()
}

fn faults_of_task(record: &[u8; 8], count: u16) -> Vec<&'static str> {
    let [_, level, read_level, driver, container, marks, ..] = *record;
    let broken = [
        u16::from(level) >= count,
        u16::from(read_level) >= count,
        driver != 0,
        container != 0,
        marks == 2,
        marks > 3,
    ];
    broken.into_iter().zip(TASK).filter(|(broken, _)| *broken).map(|(_, how)| how).collect()
}

fn faults_of_object(
    n: u8,
    record: &[u8; 8],
    count: u16,
    kind: impl Fn(u8) -> Option<u8>,
) -> Vec<&'static str> {
    let [_, level, read_level, driver, container, marks, ..] = *record;
    let root = container == 255;
    let broken = [
        u16::from(level) >= count,
        read_level != 0,
        driver > 127,
        kind(driver) == Some(0),
        kind(driver) == Some(2),
        container > 127 && !root,
        container == n,
        kind(container) == Some(0),
        kind(container) == Some(1),
        marks == 2,
        marks == 3,
        marks > 3,
    ];
    broken.into_iter().zip(OBJECT).filter(|(broken, _)| *broken).map(|(_, how)| how).collect()
}

fn fault_of_core(record: &[u8; 8], top: u16) -> Option<&'static str> {
    match record[0] {
        0 => Some(CORE[0]),
        2 => Some(CORE[1]),
        1 if u16::from(record[1]) != top => Some(CORE[2]),
        _ => None,
    }
}

/// What breaks an order.
const ORDER: [&str; 9] = [
    "count 0",
    "count over 16",
    "top not below the count",
    "a bit past the count",
    "a row past the count",
    "not reflexive",
    "not transitive",
    "not antisymmetric",
    "a level not below the top",
];

/// Every cause of verdict 3, at a start and at other calls. There a count of 0 and
/// a top past the count leave no bytes sound.
pub fn all_of_orders() -> Vec<(bool, Reason)> {
    let reason = |how| ("order", how);
    let at_starts = ORDER.iter().map(|&how| (true, reason(how)));
    let elsewhere = ORDER.iter().filter(|how| ![ORDER[0], ORDER[2]].contains(how));
    at_starts.chain(elsewhere.map(|&how| (false, reason(how)))).collect()
}

/// A count that does not fit is told alone.
pub fn order_cause(order: &Order) -> Option<Reason> {
    let Order { rows, count, top } = *order;
    let le = |a, b| at_or_below(order, a, b);
    let levels = || 0..count.min(16);
    let pairs = || levels().flat_map(move |a| levels().map(move |b| (a, b)));
    let past = |row: &u16| count < 16 && row >> count != 0;
    let broken = [
        count == 0,
        count > 16,
        top >= count,
        rows.iter().take(count.into()).any(past),
        rows.iter().skip(count.into()).any(|&row| row != 0),
        levels().any(|a| !le(a, a)),
        pairs().any(|(a, b)| le(a, b) && levels().any(|c| le(b, c) && !le(a, c))),
        pairs().any(|(a, b)| a != b && le(a, b) && le(b, a)),
        top < count && levels().any(|a| a != top && !le(a, top)),
    ];
    let told = if count == 0 || count > 16 { 2 } else { ORDER.len() };
    let broken = broken.into_iter().zip(ORDER).take(told);
    single(broken.filter(|(broken, _)| *broken)).map(|(_, how)| ("order", how))
}
