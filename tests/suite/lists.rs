//! Long random lists of calls, the library and the model held equal after each.

use std::collections::BTreeSet;

use tupehiwo::ffi::code;
use tupehiwo_tests::causes::{MOVED, NESTED};
use tupehiwo_tests::compare::Pair;
use tupehiwo_tests::list::List;
use tupehiwo_tests::memories::{Memory, Unreached, must_be_unreached};
use tupehiwo_tests::model::{Lengths, Number, State};
use tupehiwo_tests::request;
use tupehiwo_tests::rng::{Rng, seed};
use tupehiwo_tests::table::{Table, sum_of};
use tupehiwo_tests::worlds;

const LISTS: u64 = 1200;
const CALLS_OF_A_LIST: usize = 900;
/// How many numbers new things get.
const POOLS: [usize; 6] = [4, 7, 10, 16, 30, 127];
const MEMORIES: u64 = 8000;
const CALLS_ON_A_MEMORY: usize = 12;

fn one_list(seed: u64) -> Table {
    let mut list = List::begin(seed, worlds::order, &POOLS);
    for call in 1..=CALLS_OF_A_LIST {
        list.any_call();
        if call % 100 == 0 {
            list.must_keep_the_limits();
        }
        list.must_end_at_roots();
    }
    list.pair.table
}

#[test]
fn lists_from_a_start() {
    let first = seed("lists_from_a_start");
    let table = sum_of(0..LISTS, |number| one_list(first.wrapping_add(number)));
    println!("{} calls in lists from a start\n{table}", table.calls());
    assert!(table.calls() > 1_000_000);
    table.must_be_complete();
    must_have_met_containers(&table, 500, false);
}

/// Moves refused because the new container lies inside the object, and moves granted, each
/// more often than `least`. Circles must be met where there can be some.
fn must_have_met_containers(table: &Table, least: u64, circles: bool) {
    let refused = NESTED.map(|(_, how)| ("refused", how, table.causes.times(7, how)));
    let granted = MOVED.map(|how| ("granted", how, table.causes.times(0, how)));
    let place = if circles { "on any memory" } else { "in lists" };
    for (kind, (verdict, how, times)) in (0..3).chain(0..3).zip(refused.into_iter().chain(granted))
    {
        println!("of the moves {place}, {times} are {verdict}: {how}");
        let can_be = kind < 2 || circles;
        assert!(if can_be { times > least } else { times == 0 }, "{times} {verdict}: {how}");
    }
}

#[test]
fn calls_on_any_memory() {
    let first = seed("calls_on_any_memory");
    let mut table = Table::default();
    let mut unreached = Unreached::new();
    for number in 0..MEMORIES {
        let memory = Memory::new(first.wrapping_add(number), worlds::sound_state);
        table.add(&memory.calls(CALLS_ON_A_MEMORY, &mut unreached));
    }
    println!("{} calls on any memory\n{table}", table.calls());
    table.must_be_complete();
    must_have_met_containers(&table, 20, true);
    must_be_unreached(&unreached, MEMORIES);
}

/// What chains reach, by a search that knows no rounds.
fn reached_by_chains(state: &State) -> BTreeSet<Number> {
    let mut reached = BTreeSet::new();
    let marked = state.used().filter(|(_, thing)| thing.is_marked());
    let mut open: Vec<Number> = marked.map(|(n, _)| n).collect();
    while let Some(link) = open.pop() {
        if !reached.insert(link) {
            continue;
        }
        let fed = state.flows.range((link, 0)..=(link, 127)).map(|&(_, to)| to);
        open.extend(fed.filter(|&to| state.thing(to).is_ok()));
        let driven = state.objects().filter(|(_, object)| object.driver == link);
        open.extend(driven.map(|(n, _)| n));
    }
    reached
}

#[test]
fn a_spread_marks_what_chains_reach() {
    let mut rng = Rng::new(seed("a_spread_marks_what_chains_reach"));
    let spread = request(code::SPREAD, &[]);
    for number in 0..2000 {
        let order = worlds::order(&mut rng);
        let mut state = worlds::sound_state(&mut rng, &order);
        // Few flows, so that much stays out of reach.
        let few = rng.below(200);
        state.flows.retain(|_| rng.below(3000) < few);
        let reached = reached_by_chains(&state);
        let mut pair = Pair::new(format!("spread {number}"));
        pair.set_state(state);
        assert_eq!(pair.perform(order, spread).verdict, 0);
        let report = pair.report_with(Lengths::RIGHT, order);
        let is_marked = |&n: &Number| report.words[usize::from(n) / 64] >> (n % 64) & 1 == 1;
        let marked: BTreeSet<Number> = (0..128).filter(is_marked).collect();
        assert_eq!(marked, reached, "spread {number}");
        let again = pair.perform(order, spread);
        assert_eq!(again.rounds, 0, "a spread straight after a spread");
    }
}
