//! A tally for each task: whom a call counts on, what zeroes the list, what leaves all of it
//! as it was, and where counts stop.

use tupehiwo::ffi::{self, Answer, Order, Request, Tally, code};
use tupehiwo_tests::cast::{
    Cast, GRANTED, NUMBER, ORDER, SLIPPED, STATE, STILL, TOP, unfit, with, wrong_lengths,
};
use tupehiwo_tests::causes::how_many;
use tupehiwo_tests::compare::Pair;
use tupehiwo_tests::model::{
    BYTES, Lengths, NOTHING_COUNTED, Number, State, THINGS, Tallies, Thing, WORDS,
};
use tupehiwo_tests::request;
use tupehiwo_tests::rng::{Rng, seed};
use tupehiwo_tests::texts::{self, BEGUN};
use tupehiwo_tests::worlds::{self, FAILING, Q, SHORT, numbers};

// -------------------------------------------------------------------- a list

/// A list with one count of one record raised, unless it is at its stop.
fn raised(mut list: Tallies, record: Number, verdict: u8) -> Tallies {
    let Tally { granted, slipped, refused } = &mut list[usize::from(record)];
    let count = match verdict {
        GRANTED => granted,
        SLIPPED => slipped,
        _ => refused,
    };
    *count = count.saturating_add(1);
    list
}

/// The library and the model on lists of any counts.
struct Ledger {
    rng: Rng,
    pair: Pair,
}

impl Ledger {
    fn new(test: &str) -> Ledger {
        Ledger { rng: Rng::new(seed(test)), pair: Pair::new(test) }
    }

    /// Lends this memory and a list with counts in every record, and tells the list.
    fn lend(&mut self, state: &State) -> Tallies {
        let tallies = worlds::tallies(&mut self.rng);
        self.pair.set_state(state.clone());
        self.pair.set_tallies(tallies);
        tallies
    }

    /// The call has this verdict, and raises that count of this record alone.
    #[track_caller]
    fn must_raise(&mut self, record: Number, verdict: u8, state: &State, call: Request) {
        self.must_raise_under(Q, record, verdict, state, call);
    }

    #[track_caller]
    fn must_raise_under(
        &mut self,
        order: Order,
        record: Number,
        verdict: u8,
        state: &State,
        call: Request,
    ) {
        let before = self.lend(state);
        assert_eq!(self.pair.perform(order, call).verdict, verdict, "{call:?}");
        let after = raised(before, record, verdict);
        assert!(self.pair.tallies() == after, "{call:?} does not count on {record}");
    }

    /// It is refused with 2, and of all that is lent nothing changes.
    #[track_caller]
    fn must_change_nothing(&mut self, state: &State, make: impl FnOnce(&mut Pair) -> Answer) {
        self.lend(state);
        let before = self.pair.memory().clone();
        let answer = make(&mut self.pair);
        assert_eq!((answer.verdict, answer.rounds), (STATE, 0));
        assert!(*self.pair.memory() == before, "something changed");
    }
}

// ------------------------------------------------------------------ who asks

#[test]
fn every_task_that_asks_is_counted_on() {
    let mut ledger = Ledger::new("every_task_that_asks_is_counted_on");
    for asker in numbers() {
        let cast = Cast::of(asker);
        let state = cast.state();
        for call in cast.asked() {
            ledger.must_raise(asker, GRANTED, &state, call);
        }
    }
}

#[test]
fn a_slip_counts_on_the_task_that_asks() {
    let mut ledger = Ledger::new("a_slip_counts_on_the_task_that_asks");
    for asker in numbers() {
        let cast = Cast::of(asker);
        let state = cast.slippery();
        let [read, write, _, _, _, moving, ..] = cast.asked();
        ledger.must_raise(asker, SLIPPED, &state, read);
        for call in [write, moving] {
            let verdict = if asker == 0 { GRANTED } else { SLIPPED };
            ledger.must_raise(asker, verdict, &state, call);
        }
    }
}

/// With 5 to 8, 10 to 12 and 16, each call that can be: 4 and 9 follow.
#[test]
fn every_refusal_counts_on_the_task_that_asks() {
    let mut ledger = Ledger::new("every_refusal_counts_on_the_task_that_asks");
    for asker in numbers().skip(1) {
        let cast = Cast::of(asker);
        let refused = cast.refused().into_iter().chain(cast.too_low()).chain(cast.kept());
        for (state, verdict, calls) in refused {
            for call in calls {
                ledger.must_raise(asker, verdict, &state, call);
            }
        }
    }
}

#[test]
fn a_later_number_that_is_unfit_counts_on_the_task_that_asks() {
    let mut ledger = Ledger::new("a_later_number_that_is_unfit_counts_on_the_task_that_asks");
    for asker in [0, 1, 2, 63, 64, 126, 127] {
        let cast = Cast::of(asker);
        let state = cast.state();
        for call in cast.asked() {
            for place in 1..how_many(call.code) {
                for (number, verdict) in unfit(&cast, call, place) {
                    ledger.must_raise(asker, verdict, &state, with(call, place, number));
                }
            }
        }
    }
}

/// Neither on its own record, nor on that of a task that is named behind it.
#[test]
fn an_object_or_a_free_number_that_asks_counts_on_record_0() {
    let mut ledger = Ledger::new("an_object_or_a_free_number_that_asks_counts_on_record_0");
    for asker in numbers().skip(1) {
        let cast = Cast::of(asker);
        for thing in [cast.driven(TOP, None), Thing::Free] {
            let mut state = cast.state();
            state.put(asker, thing);
            for call in cast.asked() {
                ledger.must_raise(0, NUMBER, &state, call);
            }
        }
    }
}

/// Cut to fewer bits, the last three are the asker's number.
#[test]
fn a_first_number_of_128_or_more_counts_on_record_0() {
    let mut ledger = Ledger::new("a_first_number_of_128_or_more_counts_on_record_0");
    for asker in [1, 2, 63, 64, 127] {
        let cast = Cast::of(asker);
        let state = cast.state();
        for call in cast.asked() {
            for first in [128, 129, 255, 256, 65535, 128 + asker, 256 + asker, 32768 + asker] {
                ledger.must_raise(0, NUMBER, &state, with(call, 0, first));
            }
        }
    }
}

#[test]
fn a_call_that_no_task_asks_for_counts_on_record_0() {
    let mut ledger = Ledger::new("a_call_that_no_task_asks_for_counts_on_record_0");
    for asker in numbers() {
        let cast = Cast::of(asker);
        let state = cast.state();
        for (call, verdict) in cast.unasked() {
            ledger.must_raise(0, verdict, &state, call);
        }
        for code in [code::MARK, code::STEP] {
            for unfit in [cast.free, 128, 129, 255, 256, 65535, 128 + asker] {
                ledger.must_raise(0, NUMBER, &state, request(code, &[unfit]));
            }
        }
        ledger.must_raise(0, NUMBER, &state, request(code::MARK, &[cast.object]));
        ledger.must_raise(0, GRANTED, &state, request(code::STEP, &[cast.object]));
        ledger.must_raise(0, STILL, &state, request(code::STEP, &[cast.other]));
    }
}

#[test]
fn memory_that_is_not_sound_counts_on_record_0() {
    let mut ledger = Ledger::new("memory_that_is_not_sound_counts_on_record_0");
    for asker in numbers() {
        let cast = Cast::of(asker);
        for state in cast.unsound() {
            for call in cast.every_call().into_iter().filter(|call| call.code != code::START) {
                ledger.must_raise(0, STATE, &state, call);
                ledger.must_raise_under(FAILING, 0, STATE, &state, call);
            }
        }
    }
}

/// A start too: refused it zeroes nothing.
#[test]
fn an_order_that_fails_counts_on_record_0() {
    let mut ledger = Ledger::new("an_order_that_fails_counts_on_record_0");
    for asker in numbers() {
        let cast = Cast::of(asker);
        for call in cast.every_call() {
            ledger.must_raise_under(FAILING, 0, ORDER, &cast.state(), call);
        }
    }
}

#[test]
fn bytes_and_words_of_another_length_count_on_record_0() {
    let mut ledger = Ledger::new("bytes_and_words_of_another_length_count_on_record_0");
    for asker in [0, 1, 64, 127] {
        let cast = Cast::of(asker);
        for call in cast.every_call() {
            for (bytes, words) in [(1023, 768), (1025, 768), (1024, 767), (1024, 769), (0, 0)] {
                let lengths = Lengths { bytes, words, ..Lengths::RIGHT };
                let before = ledger.lend(&cast.state());
                let answer = ledger.pair.perform_with(lengths, Q, call);
                assert_eq!(answer.verdict, STATE, "{lengths:?}");
                assert!(ledger.pair.tallies() == raised(before, 0, STATE), "{call:?}");
            }
        }
    }
}

// ------------------------------------------------------------ starts and loads

#[test]
fn a_granted_start_zeroes_the_list_and_counts_itself() {
    let mut ledger = Ledger::new("a_granted_start_zeroes_the_list_and_counts_itself");
    for asker in numbers() {
        let cast = Cast::of(asker);
        for state in cast.unsound().into_iter().chain([cast.state()]) {
            ledger.lend(&state);
            let start = request(code::START, &[asker, asker, asker]);
            assert_eq!(ledger.pair.perform(Q, start).verdict, GRANTED);
            assert!(ledger.pair.tallies() == raised(NOTHING_COUNTED, 0, GRANTED));
        }
    }
}

/// Its calls count nowhere.
#[test]
fn a_granted_load_zeroes_the_list_and_counts_itself() {
    let mut ledger = Ledger::new("a_granted_load_zeroes_the_list_and_counts_itself");
    for asker in numbers() {
        let cast = Cast::of(asker);
        for state in cast.unsound().into_iter().chain([cast.state()]) {
            for text in ["", BEGUN] {
                ledger.lend(&state);
                assert_eq!(ledger.pair.load(Q, text.as_bytes()).verdict, GRANTED);
                assert!(ledger.pair.tallies() == raised(NOTHING_COUNTED, 0, GRANTED));
            }
        }
    }
}

#[test]
fn a_refused_load_zeroes_nothing_and_counts_on_record_0() {
    let mut ledger = Ledger::new("a_refused_load_zeroes_nothing_and_counts_on_record_0");
    for asker in [0, 1, 64, 127] {
        let state = Cast::of(asker).state();
        for (text, verdict) in texts::refused() {
            for (lengths, order, verdict) in [
                (Lengths::RIGHT, Q, verdict),
                (Lengths::RIGHT, FAILING, ORDER),
                (SHORT, Q, STATE),
                (SHORT, FAILING, STATE),
            ] {
                let before = ledger.lend(&state);
                assert_eq!(ledger.pair.load_with(lengths, order, &text).verdict, verdict);
                assert!(ledger.pair.tallies() == raised(before, 0, verdict), "{verdict}");
            }
        }
    }
}

// ------------------------------------------------------ lists of another length

/// Whatever else is wrong with it, and with a start too.
#[test]
fn a_call_with_a_list_of_another_length_changes_nothing() {
    let mut ledger = Ledger::new("a_call_with_a_list_of_another_length_changes_nothing");
    let cast = Cast::of(1);
    for state in cast.unsound().into_iter().chain([cast.state()]) {
        for call in cast.every_call() {
            for lengths in wrong_lengths() {
                for order in [Q, FAILING] {
                    ledger.must_change_nothing(&state, |pair| {
                        pair.perform_with(lengths, order, call)
                    });
                }
            }
        }
    }
}

#[test]
fn a_load_with_a_list_of_another_length_changes_nothing() {
    let mut ledger = Ledger::new("a_load_with_a_list_of_another_length_changes_nothing");
    let cast = Cast::of(1);
    let refused = texts::refused().into_iter().map(|(text, _)| text);
    let texts: Vec<Vec<u8>> = refused.chain(["", BEGUN].map(Vec::from)).collect();
    for state in cast.unsound().into_iter().chain([cast.state()]) {
        for text in &texts {
            for lengths in wrong_lengths() {
                for order in [Q, FAILING] {
                    ledger.must_change_nothing(&state, |pair| pair.load_with(lengths, order, text));
                }
            }
        }
    }
}

/// Cut to 8 or to 16 bits, these lengths would be 128.
#[test]
fn a_list_that_is_far_too_long_changes_nothing() {
    let cast = Cast::of(1);
    for length in [128 + 256, 128 + 65536] {
        let (mut bytes, mut words) = ([0; BYTES], [0; WORDS]);
        cast.state().write(&mut bytes, &mut words);
        let mut tallies = vec![Tally { granted: 7, slipped: 8, refused: 9 }; length];
        let before = (bytes, words, tallies.clone());
        for call in cast.every_call() {
            let answer = ffi::perform(&mut bytes, &mut words, &mut tallies, Q, call);
            assert_eq!((answer.verdict, answer.rounds), (STATE, 0), "{call:?}");
        }
        let answer = ffi::load(&mut bytes, &mut words, &mut tallies, Q, b"");
        assert_eq!((answer.verdict, answer.rounds), (STATE, 0));
        assert!((bytes, words, tallies) == before, "something changed");
    }
}

// ----------------------------------------------------------- what a list holds

/// All counts one short of their stop: the one that is raised gets there, and stays.
#[test]
fn every_count_of_every_record_stops() {
    let nearly = u32::MAX - 1;
    let list = [Tally { granted: nearly, slipped: nearly, refused: nearly }; THINGS];
    let mut pair = Pair::new("counts");
    for asker in numbers() {
        let cast = Cast::of(asker);
        let [read, ..] = cast.asked();
        let unfit = with(read, 2, cast.free);
        for (verdict, state, call) in [
            (GRANTED, cast.state(), read),
            (SLIPPED, cast.slippery(), read),
            (NUMBER, cast.state(), unfit),
        ] {
            pair.set_tallies(list);
            for _ in 0..3 {
                pair.set_state(state.clone());
                assert_eq!(pair.perform(Q, call).verdict, verdict);
                assert!(pair.tallies() == raised(list, asker, verdict), "{asker} {verdict}");
            }
        }
    }
}

/// A load that is refused, and a start, stop where other calls do.
#[test]
fn the_counts_of_starts_and_loads_stop() {
    let mut pair = Pair::new("counts of starts and loads");
    let mut list = [Tally { granted: 7, slipped: 8, refused: 9 }; THINGS];
    list[0].refused = u32::MAX;
    pair.set_tallies(list);
    assert_eq!(pair.load(Q, b"(").verdict, 14);
    assert_eq!(pair.load(FAILING, b"").verdict, ORDER);
    assert_eq!(pair.perform(FAILING, request(code::START, &[])).verdict, ORDER);
    assert!(pair.tallies() == list);
}

/// An object and then a task get a number: its record keeps what it held, and the task goes
/// on from there.
#[test]
fn a_number_given_out_again_keeps_its_record() {
    let mut ledger = Ledger::new("a_number_given_out_again_keeps_its_record");
    for asker in numbers() {
        let cast = Cast::of(asker);
        let Cast { driver, other, from, new, .. } = cast;
        let mut expected = ledger.lend(&cast.state());
        for (record, call) in [
            (asker, request(code::CREATE, &[asker, driver, new, from, TOP])),
            (asker, request(code::DELETE, &[asker, driver, new, from])),
            (driver, request(code::EXECUTE, &[driver, from, new, TOP, TOP])),
            (new, request(code::CALL, &[new, other])),
            (new, request(code::INVOKE, &[new, asker])),
        ] {
            assert_eq!(ledger.pair.perform(Q, call).verdict, GRANTED, "{call:?}");
            expected = raised(expected, record, GRANTED);
            assert!(ledger.pair.tallies() == expected, "{call:?}");
        }
    }
}
