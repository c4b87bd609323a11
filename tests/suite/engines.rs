//! The two engines side by side: the one that looks its decisions up, behind the library's own
//! names, and the one that keeps to the plain rules, in libplain.a. After every call both have
//! answered and left what the model says, and so the same.

use std::iter::repeat_n;

use tupehiwo::ffi::{Answer, Order, Request, Tally, code};
use tupehiwo_tests::author::Author;
use tupehiwo_tests::cast::{
    Cast, GRANTED, NUMBER, ORDER, SLIPPED, STATE, STILL, TAKEN, unfit, with, wrong_lengths,
};
use tupehiwo_tests::causes::how_many;
use tupehiwo_tests::compare::{Engine, Pair};
use tupehiwo_tests::list::List;
use tupehiwo_tests::memories::{Memory, Unreached, must_be_unreached};
use tupehiwo_tests::model::{
    BYTES, Lengths, Mark, Number, Object, State, THINGS, Task, Thing, WORDS,
};
use tupehiwo_tests::request;
use tupehiwo_tests::rng::{Rng, seed};
use tupehiwo_tests::settings::{CODES, counted};
use tupehiwo_tests::stages::{call, orders, possible, stages};
use tupehiwo_tests::table::{Table, sum_of};
use tupehiwo_tests::texts::{self, BEGUN};
use tupehiwo_tests::worlds::{self, FAILING, FLAT, Q, SHORT, numbers};

// ------------------------------------------------------------ the plain rules' engine

// 'tools/build plain' builds it beside libmonitor.a.
#[link(name = "plain", kind = "static")]
unsafe extern "C" {
    /// As `tupehiwo_perform`, with the list lent as numbers, three to a record.
    fn tupehiwo_plain_perform(
        bytes: *mut u8,
        nbytes: usize,
        words: *mut u64,
        nwords: usize,
        counts: *mut u32,
        ncounts: usize,
        order: Order,
        request: Request,
    ) -> Answer;

    /// As `tupehiwo_load`, with such a list.
    fn tupehiwo_plain_load(
        bytes: *mut u8,
        nbytes: usize,
        words: *mut u64,
        nwords: usize,
        counts: *mut u32,
        ncounts: usize,
        order: Order,
        text: *const u8,
        ntext: usize,
    ) -> Answer;
}

/// Numbers around a list, and past its last record, which must never change.
const AROUND: u32 = 0xA5A5_5A5A;
const MARGIN: usize = 40;

/// Lends a list as numbers, and so many more behind its last record.
fn as_numbers(
    tallies: &mut [Tally],
    more: usize,
    ask: impl FnOnce(&mut [u32]) -> Answer,
) -> Answer {
    let records = tallies.iter().flat_map(|it| [it.granted, it.slipped, it.refused]);
    let around = [AROUND; MARGIN];
    let mut numbers: Vec<u32> = around.into_iter().chain(records).collect();
    let end = numbers.len();
    numbers.extend([AROUND; 2 + MARGIN]);
    let answer = ask(&mut numbers[MARGIN..end + more]);
    let (records, behind) = numbers[MARGIN..].split_at(end - MARGIN);
    let untouched = |kept: &[u32]| kept.iter().all(|&number| number == AROUND);
    assert!(untouched(&numbers[..MARGIN]) && untouched(behind), "numbers around the list changed");
    for (tally, record) in tallies.iter_mut().zip(records.chunks_exact(3)) {
        *tally = Tally { granted: record[0], slipped: record[1], refused: record[2] };
    }
    answer
}

fn perform<const MORE: usize>(
    bytes: &mut [u8],
    words: &mut [u64],
    tallies: &mut [Tally],
    order: Order,
    request: Request,
) -> Answer {
    let (nbytes, nwords) = (bytes.len(), words.len());
    let (bytes, words) = (bytes.as_mut_ptr(), words.as_mut_ptr());
    // SAFETY: the pointers are those of slices lent for change, with the slices' own lengths.
    as_numbers(tallies, MORE, |list| unsafe {
        let (counts, ncounts) = (list.as_mut_ptr(), list.len());
        tupehiwo_plain_perform(bytes, nbytes, words, nwords, counts, ncounts, order, request)
    })
}

fn load<const MORE: usize>(
    bytes: &mut [u8],
    words: &mut [u64],
    tallies: &mut [Tally],
    order: Order,
    text: &[u8],
) -> Answer {
    let (nbytes, nwords) = (bytes.len(), words.len());
    let (bytes, words) = (bytes.as_mut_ptr(), words.as_mut_ptr());
    let (text, ntext) = (text.as_ptr(), text.len());
    // SAFETY: the same, and of a slice lent to be read.
    as_numbers(tallies, MORE, |list| unsafe {
        let (counts, ncounts) = (list.as_mut_ptr(), list.len());
        tupehiwo_plain_load(bytes, nbytes, words, nwords, counts, ncounts, order, text, ntext)
    })
}

const fn plain<const MORE: usize>() -> Engine {
    let (perform, load) = (perform::<MORE>, load::<MORE>);
    Engine { name: "the plain rules' engine", perform, load }
}

/// Lent no number more than the records have, one, and two.
const PLAIN: [Engine; 3] = [plain::<0>(), plain::<1>(), plain::<2>()];

/// One of the three, with each seed another.
fn one_of_three(seed: u64) -> [Engine; 1] {
    [PLAIN[(seed % 3) as usize]]
}

/// The library with all three beside it.
fn engines(label: &str) -> Pair {
    Pair::beside(&PLAIN, label)
}

// ---------------------------------------------------------------------- random calls

const LISTS: u64 = 400;
const CALLS_OF_A_LIST: usize = 600;
/// How many numbers new things get.
const POOLS: [usize; 5] = [4, 7, 10, 16, 60];

fn one_list(seed: u64) -> Table {
    let mut list = List::beside(&one_of_three(seed), seed, worlds::order, &POOLS);
    (0..CALLS_OF_A_LIST).for_each(|_| list.any_call());
    list.pair.table
}

#[test]
fn lists_from_a_start() {
    let first = seed("lists_from_a_start");
    let table = sum_of(0..LISTS, |number| one_list(first.wrapping_add(number)));
    println!("{} calls in lists of both engines\n{table}", table.calls());
    println!("of the settings in lists, {} are met", counted(&table.settings.met()));
    table.must_be_complete();
}

const MEMORIES: u64 = 4000;
const CALLS_ON_A_MEMORY: usize = 12;

/// Few things, or many.
fn any_state(rng: &mut Rng, order: &Order) -> State {
    let states = if rng.once_in(8) { worlds::sound_state } else { worlds::dense_state };
    states(rng, order)
}

#[test]
fn calls_on_any_memory() {
    let first = seed("calls_on_any_memory");
    let mut table = Table::default();
    let mut unreached = Unreached::new();
    for seed in (0..MEMORIES).map(|number| first.wrapping_add(number)) {
        let memory = Memory::beside(&one_of_three(seed), seed, any_state);
        table.add(&memory.calls(CALLS_ON_A_MEMORY, &mut unreached));
    }
    println!("{} calls on any memory of both engines\n{table}", table.calls());
    table.must_be_complete();
    must_be_unreached(&unreached, MEMORIES);
}

const STATES: u64 = 6000;

/// How often each is asked for on a state. Reads have most settings; what a move, a pass or a
/// post needs is often not recorded.
fn calls_of(code: u16) -> usize {
    match code {
        code::READ => 24,
        code::MOVE | code::PASS | code::POST => 8,
        _ => 2,
    }
}

/// The eight that look a decision up, on one state.
fn the_eight(seed: u64, orders: &[Order]) -> Table {
    let mut rng = Rng::new(seed);
    let mut pair = Pair::beside(&one_of_three(seed), format!("state of TUPEHIWO_SEED={seed}"));
    let pool: Vec<Number> = numbers().collect();
    let order = if rng.once_in(3) { worlds::order(&mut rng) } else { rng.pick(orders) };
    let state = worlds::dense_state(&mut rng, &order);
    for code in CODES.iter().flat_map(|&code| repeat_n(code, calls_of(code))) {
        let (rng, state) = (&mut rng, &state);
        let call = Author { rng, state, order: &order, pool: &pool }.request_of(code);
        pair.set_state(state.clone());
        pair.perform(order, call);
    }
    pair.table
}

#[test]
fn the_eight_on_any_memory() {
    let first = seed("the_eight_on_any_memory");
    let orders = orders();
    let table = sum_of(0..STATES, |number| the_eight(first.wrapping_add(number), &orders));
    table.settings.must_be(&possible(), "on any memory");
}

// ----------------------------------------------------------------- settings and calls

/// The first numbers, and those where a word of a row begins or ends.
const EDGES: [Number; 7] = [0, 1, 2, 63, 64, 126, 127];
const STAGES: usize = 12;

#[test]
fn every_setting_that_an_order_allows() {
    let mut pair = engines("settings");
    let all = stages(STAGES);
    for (met, stages) in &all {
        let code = CODES[met.operation];
        for (stage, &asker) in stages.iter().zip(EDGES[1..].iter().cycle()) {
            let cast = Cast::of(asker);
            pair.set_state(stage.state(&cast, code));
            let answer = pair.perform(stage.order, call(&cast, code));
            assert_eq!(answer.verdict, met.entry().verdict as u8, "{met} {stage:?}");
        }
    }
    pair.table.settings.must_be(&all.into_keys().collect(), "that an order allows");
}

/// A call on a state, and the verdict that both engines must give.
#[track_caller]
fn must_give(pair: &mut Pair, verdict: u8, state: &State, request: Request) {
    pair.set_state(state.clone());
    assert_eq!(pair.perform(Q, request).verdict, verdict, "{request:?}");
}

#[test]
fn every_verdict_of_every_call() {
    let mut pair = engines("verdicts");
    for cast in numbers().map(Cast::of) {
        let (state, slippery) = (cast.state(), cast.slippery());
        let asked = cast.asked();
        asked.iter().for_each(|&call| must_give(&mut pair, GRANTED, &state, call));
        for (call, verdict) in cast.unasked() {
            must_give(&mut pair, verdict, &state, call);
        }
        must_give(&mut pair, SLIPPED, &slippery, asked[0]);
        if cast.asker == 0 {
            continue;
        }
        must_give(&mut pair, SLIPPED, &slippery, asked[1]);
        must_give(&mut pair, SLIPPED, &slippery, asked[5]);
        let refused = cast.refused().into_iter().chain(cast.too_low()).chain(cast.kept());
        for (state, verdict, calls) in refused {
            calls.iter().for_each(|&call| must_give(&mut pair, verdict, &state, call));
        }
    }
}

#[test]
fn unfit_numbers() {
    let mut pair = engines("unfit numbers");
    for cast in EDGES.map(Cast::of) {
        let (state, Cast { asker, object, free, .. }) = (cast.state(), cast);
        for call in cast.asked() {
            for first in [object, free, 128, 129, 255, 256, 65535, 128 + asker, 256 + asker] {
                must_give(&mut pair, NUMBER, &state, with(call, 0, first));
            }
            for place in 1..how_many(call.code) {
                for (number, verdict) in unfit(&cast, call, place) {
                    must_give(&mut pair, verdict, &state, with(call, place, number));
                }
            }
        }
    }
}

#[test]
fn unknown_codes() {
    let mut pair = engines("unknown codes");
    let state = Cast::of(1).state();
    pair.set_state(state.clone());
    for code in (16..=600).chain((601..65500).step_by(97)).chain(65500..=65535) {
        let verdict = pair.perform(Q, request(code, &[1, 2, 4])).verdict;
        assert_eq!(verdict, NUMBER, "code {code}");
    }
    assert_eq!(pair.model.state, state);
}

/// Each task feeds the next, so that a spread from the first takes as many rounds. An object
/// of a marked driver that nothing feeds is marked by a spread, and by no step.
#[test]
fn steps_and_long_spreads() {
    let mut pair = engines("steps and long spreads");
    let task = |mark| Thing::Task(Task { level: Q.top, read_level: Q.top, mark });
    for last in [1, 2, 63, 64, 126, 127] {
        let mut state = State::started(Q.top);
        (0..=last).for_each(|n| state.put(n, task(Mark::Unmarked)));
        state.put(0, task(Mark::Marked));
        state.flows.extend((0..last).map(|n| (n, n + 1)));
        pair.set_state(state);
        let rounds = pair.perform(Q, request(code::SPREAD, &[])).rounds;
        assert_eq!(u16::from(rounds), last);
    }
    let mut state = State::started(Q.top);
    state.put(0, task(Mark::Marked));
    let object = Object { level: 0, driver: 0, container: None, marked: false };
    state.put(1, Thing::Object(object));
    must_give(&mut pair, STILL, &state, request(code::STEP, &[1]));
    must_give(&mut pair, GRANTED, &state, request(code::SPREAD, &[]));
}

// ------------------------------------------------------------------- what is lent

/// Each byte of a small world in turn.
#[test]
fn unsound_bytes() {
    let mut rng = Rng::new(seed("unsound_bytes"));
    let cast = Cast::of(126);
    let (mut pair, sound) = (engines("unsound bytes"), cast.slippery());
    let calls = cast.every_call();
    let mut refused = 0;
    for place in 0..8 * THINGS {
        for value in [1, 2, 3, 4, 128, 255] {
            pair.set_state(sound.clone());
            pair.set_byte(place, value);
            refused += u32::from(pair.perform(Q, rng.pick(&calls)).verdict == STATE);
        }
    }
    assert!(refused > 4000, "only {refused} were refused");
    pair.set_state(State::read(&[0; BYTES], &[0; WORDS]));
    for call in calls.into_iter().filter(|call| call.code != code::START) {
        assert_eq!(pair.perform(FLAT, call).verdict, STATE, "{call:?} before a start");
    }
}

#[test]
fn failing_orders() {
    let mut rng = Rng::new(seed("failing_orders"));
    let mut pair = engines("failing orders");
    for cast in EDGES.map(Cast::of) {
        let state = cast.state();
        for call in cast.every_call() {
            pair.set_state(state.clone());
            assert_eq!(pair.perform(FAILING, call).verdict, ORDER, "{call:?}");
            let order = worlds::failing_order(&mut rng, Q);
            let verdict = pair.perform(order, call).verdict;
            assert!([STATE, ORDER].contains(&verdict), "{verdict} of {call:?} under {order:?}");
        }
    }
    // A level counts by the count as lent.
    for count in [17, 40, 200, 256, 65535] {
        let order = Order { count, ..Q };
        pair.set_state(worlds::dense_state(&mut rng, &order));
        for call in Cast::of(1).every_call() {
            assert_eq!(pair.perform(order, call).verdict, ORDER, "{call:?} under {order:?}");
        }
    }
}

/// Of bytes, of words, and of the list, whose numbers may be one or two more than three for
/// each record.
#[test]
fn wrong_lengths_of_memory_and_list() {
    let mut pair = engines("lengths");
    let memories = [(1023, 768), (1025, 768), (1024, 767), (1024, 769), (0, 0), (8, 2)];
    let memories = memories.map(|(bytes, words)| Lengths { bytes, words, ..Lengths::RIGHT });
    let lists = (0..=2 * THINGS).map(|tallies| Lengths { tallies, ..Lengths::RIGHT });
    let all = wrong_lengths().into_iter().chain(memories).chain(lists);
    let cast = Cast::of(1);
    let (state, calls) = (cast.state(), cast.every_call());
    for (lengths, &call) in all.flat_map(|lengths| calls.iter().map(move |call| (lengths, call))) {
        pair.set_state(state.clone());
        let verdict = pair.perform_with(lengths, Q, call).verdict;
        assert_eq!(verdict == STATE, lengths != Lengths::RIGHT, "{lengths:?} {call:?}");
    }
}

/// As many numbers as would be a list if they were cut to 8 or 16 bits, or not divided by
/// three, and others that are near.
#[test]
fn lists_that_are_far_too_long_or_short() {
    let cast = Cast::of(1);
    let (mut bytes, mut words) = ([0; BYTES], [0; WORDS]);
    cast.state().write(&mut bytes, &mut words);
    let kept = (bytes, words);
    for count in [0, 2, 3, 128, 383, 387, 384 + 256, 384 + 768, 384 + 65536, 384 + 3 * 65536] {
        let mut list = vec![AROUND; count];
        let (bytes_at, words_at, list_at) =
            (bytes.as_mut_ptr(), words.as_mut_ptr(), list.as_mut_ptr());
        // SAFETY: the pointers are those of the arrays and of the list, with their lengths.
        let perform = |request| unsafe {
            tupehiwo_plain_perform(bytes_at, BYTES, words_at, WORDS, list_at, count, Q, request)
        };
        // SAFETY: as above, and the text with its length.
        let load = unsafe {
            let text = BEGUN.as_bytes();
            let (at, length) = (text.as_ptr(), text.len());
            tupehiwo_plain_load(bytes_at, BYTES, words_at, WORDS, list_at, count, Q, at, length)
        };
        for answer in cast.every_call().into_iter().map(perform).chain([load]) {
            assert_eq!((answer.verdict, answer.rounds), (STATE, 0), "{count} numbers");
        }
        assert!(list.iter().all(|&number| number == AROUND), "{count} numbers");
        assert!((bytes, words) == kept, "{count} numbers");
    }
}

// -------------------------------------------------------------------------- loads

/// A text of the grammar with so many bytes: of them 28 or 29 in each line.
fn long_text(bytes: usize) -> Vec<u8> {
    let (short, long) = ("(object 1 driver 0 level 0)\n", "(object 10 driver 0 level 0)\n");
    let longs = bytes % short.len();
    let shorts = (bytes - longs * long.len()) / short.len();
    (short.repeat(shorts) + &long.repeat(longs)).into_bytes()
}

const TASK_INSIDE: &str = "(object 1 driver 0 level 0\n(task 2 image 1 level 0 reads 0)\n\
                           (object 3 driver 0 level 0))\n";

/// Texts and their verdicts: what is granted, what the grammar leaves out, what is too long.
/// Cut to 16 bits, the last would not be.
fn chosen_texts() -> Vec<(Vec<u8>, u8)> {
    let short = [
        ("", GRANTED),
        (BEGUN, GRANTED),
        ("(object 1 driver 0 level 0))\n", 14),
        (TASK_INSIDE, 14),
        ("(object 1 driver 0 level 0)\n(task 2 image 1 level 0 reads 0)", 14),
    ];
    let short = short.map(|(text, verdict)| (text.as_bytes().to_vec(), verdict));
    let long = [(16384, TAKEN), (16385, 14), (65548, 14)];
    let long = long.map(|(bytes, verdict)| (long_text(bytes), verdict));
    texts::refused().into_iter().chain(short).chain(long).collect()
}

#[test]
fn loads() {
    let mut pair = engines("loads");
    let list = Lengths { tallies: THINGS - 1, ..Lengths::RIGHT };
    let states = [Cast::of(1).state(), Cast::of(64).slippery()];
    for (text, verdict) in chosen_texts() {
        for state in &states {
            for (lengths, order, verdict) in [
                (Lengths::RIGHT, Q, verdict),
                (Lengths::RIGHT, FAILING, ORDER),
                (SHORT, Q, STATE),
                (list, Q, STATE),
            ] {
                pair.set_state(state.clone());
                assert_eq!(pair.load_with(lengths, order, &text).verdict, verdict);
            }
        }
    }
}

const TEXTS: usize = 4000;

/// Calls follow each load, so that its levels and accesses are used.
#[test]
fn random_loads() {
    let mut rng = Rng::new(seed("random_loads"));
    let mut pair = engines("random loads");
    let pool: Vec<Number> = numbers().collect();
    for _ in 0..TEXTS {
        let order = worlds::order(&mut rng);
        let text = texts::any(&mut rng, &order);
        pair.set_tallies(worlds::tallies(&mut rng));
        pair.load_with(worlds::lengths(&mut rng), order, &text);
        for _ in 0..4 {
            let (rng, state) = (&mut rng, &pair.model.state);
            let request = Author { rng, state, order: &order, pool: &pool }.request();
            pair.perform(order, request);
        }
    }
}
