//! Every number in every part of a spread: followed, marked, a driver and an object of one,
//! and each in its turn of a chain. A number, a place or a count cut short shows here.

use tupehiwo::ffi::code;
use tupehiwo_tests::compare::Pair;
use tupehiwo_tests::model::{Mark, Number, Object, RECORD, State, Task, Thing};
use tupehiwo_tests::request;
use tupehiwo_tests::worlds::{self, FLAT, numbers};

const MARKS: usize = 5;

fn task(mark: Mark) -> Thing {
    Thing::Task(Task { level: 0, read_level: 0, mark })
}

/// All numbers are tasks, without a flow, and one of them is marked.
fn tasks(marked: Number) -> State {
    let mut state = State::started(FLAT.top);
    for n in numbers() {
        state.put(n, task(Mark::Unmarked));
    }
    state.put(marked, task(Mark::Marked));
    state
}

/// Spreads: so many rounds, and these and no others are marked by it.
#[track_caller]
fn must_mark(pair: &mut Pair, state: State, rounds: u8, marked: &[Number]) {
    let was_marked = |n: Number| state.things[usize::from(n)].is_marked();
    let expected: Vec<Number> =
        numbers().filter(|n| was_marked(*n) || marked.contains(n)).collect();
    pair.set_state(state);
    let answer = pair.perform(FLAT, request(code::SPREAD, &[]));
    assert_eq!((answer.verdict, answer.rounds), (0, rounds));
    let is_marked = |&n: &Number| pair.byte(RECORD * usize::from(n) + MARKS) != 0;
    assert_eq!(numbers().filter(is_marked).collect::<Vec<_>>(), expected);
}

#[test]
fn every_number_is_followed_to_every_number() {
    let mut pair = Pair::new("followed");
    for source in numbers() {
        for fed in numbers() {
            let mut state = tasks(source);
            state.flows.insert((source, fed));
            must_mark(&mut pair, state, (fed != source).into(), &[fed]);
        }
    }
}

/// The driver is marked before, which no list of calls leaves, or the round marks it too.
#[test]
fn every_number_drives_every_number() {
    let mut pair = Pair::new("driven");
    for driver in numbers() {
        for object in numbers().skip(1).filter(|&object| object != driver) {
            let other = numbers().find(|&n| n != driver && n != object).expect("a third number");
            let driven = Object { level: 0, driver, container: None, marked: false };
            let mut state = tasks(driver);
            state.put(object, Thing::Object(driven));
            must_mark(&mut pair, state.clone(), 1, &[object]);
            state.put(driver, task(Mark::Unmarked));
            state.put(other, task(Mark::Outside));
            state.flows.insert((other, driver));
            must_mark(&mut pair, state, 1, &[driver, object]);
        }
    }
}

/// Chains of every length up to all numbers: as many rounds as links.
#[test]
fn every_length_of_a_chain_has_its_rounds() {
    let mut pair = Pair::new("chains");
    for row in worlds::in_three_orders(numbers()) {
        let mut state = tasks(row[0]);
        for links in 1..row.len() {
            state.flows.insert((row[links - 1], row[links]));
            must_mark(&mut pair, state.clone(), links as u8, &row[1..=links]);
        }
    }
}
