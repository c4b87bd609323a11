//! What the driver is told: of which calls, by which verdicts, and never by who is marked.

use std::collections::BTreeMap;

use tupehiwo::ffi::told::{NO, NO_WORD, YES};
use tupehiwo::ffi::{self, Answer, Order, Request, Tally, code};
use tupehiwo_tests::author::Author;
use tupehiwo_tests::cast::{
    Cast, FEEDING, GRANTED, HELD, NUMBER, ORDER, RULE, SLIPPED, STATE, STILL, unfit, with,
    wrong_lengths,
};
use tupehiwo_tests::causes::how_many;
use tupehiwo_tests::compare::Pair;
use tupehiwo_tests::list::List;
use tupehiwo_tests::model::{BYTES, Lengths, Number, Object, State, WORDS, at_or_below};
use tupehiwo_tests::request;
use tupehiwo_tests::rng::{Rng, seed};
use tupehiwo_tests::table::CALLS;
use tupehiwo_tests::texts::{self, BEGUN};
use tupehiwo_tests::worlds::{self, FAILING, FLAT, Q, SHORT, numbers};

// ------------------------------------------------------- by call and by verdict

/// The calls that have a word.
const EIGHT: [u16; 8] = [
    code::READ,
    code::WRITE,
    code::EXECUTE,
    code::CREATE,
    code::CREATE_ROOT,
    code::MOVE,
    code::CALL,
    code::INVOKE,
];

/// A call was answered with this verdict, and with this word if it is one of the eight.
#[track_caller]
fn must_be(answer: Answer, word: u8, verdict: u8, call: Request) {
    let told = if EIGHT.contains(&call.code) { word } else { NO_WORD };
    assert_eq!((answer.verdict, answer.told), (verdict, told), "{call:?}");
}

/// Whoever is told: the library's word and the model's.
struct Driver(Pair);

impl Driver {
    fn new() -> Driver {
        Driver(Pair::new("told words"))
    }

    #[track_caller]
    fn must_hear(&mut self, word: u8, verdict: u8, state: &State, call: Request) {
        self.must_hear_when((Lengths::RIGHT, Q), word, verdict, state, call);
    }

    /// Where so much is lent, under this order.
    #[track_caller]
    fn must_hear_when(
        &mut self,
        (lengths, order): (Lengths, Order),
        word: u8,
        verdict: u8,
        state: &State,
        call: Request,
    ) {
        self.0.set_state(state.clone());
        must_be(self.0.perform_with(lengths, order, call), word, verdict, call);
    }
}

/// The first numbers, and those where a word of a row begins or ends.
const EDGES: [Number; 7] = [0, 1, 2, 63, 64, 126, 127];

#[test]
fn a_granted_call_is_told_yes() {
    let mut driver = Driver::new();
    for cast in numbers().map(Cast::of) {
        let state = cast.state();
        for call in cast.asked() {
            driver.must_hear(YES, GRANTED, &state, call);
        }
    }
}

/// The core's write and move through a marked driver do not slip.
#[test]
fn a_slip_is_told_no() {
    let mut driver = Driver::new();
    for cast in numbers().map(Cast::of) {
        let state = cast.slippery();
        let [read, write, _, _, _, moving, ..] = cast.asked();
        driver.must_hear(NO, SLIPPED, &state, read);
        let (word, verdict) = if cast.asker == 0 { (YES, GRANTED) } else { (NO, SLIPPED) };
        driver.must_hear(word, verdict, &state, write);
        driver.must_hear(word, verdict, &state, moving);
    }
}

/// With 5 to 8, 10 to 12 and 16: 4 and 9, and 2 and 3, follow.
#[test]
fn a_refusal_is_told_no() {
    let mut driver = Driver::new();
    for cast in numbers().skip(1).map(Cast::of) {
        let refused = cast.refused().into_iter().chain(cast.too_low()).chain(cast.kept());
        for (state, verdict, calls) in refused {
            for call in calls {
                driver.must_hear(NO, verdict, &state, call);
            }
        }
    }
}

#[test]
fn an_unfit_number_is_told_no() {
    let mut driver = Driver::new();
    for cast in EDGES.map(Cast::of) {
        let (state, Cast { asker, object, free, .. }) = (cast.state(), cast);
        for call in cast.asked() {
            for first in [object, free, 128, 129, 255, 256, 65535, 128 + asker, 256 + asker] {
                driver.must_hear(NO, NUMBER, &state, with(call, 0, first));
            }
            for place in 1..how_many(call.code) {
                for (number, verdict) in unfit(&cast, call, place) {
                    driver.must_hear(NO, verdict, &state, with(call, place, number));
                }
            }
        }
    }
}

/// Memory that is not sound, lengths that are wrong, that of the list too, and an order that
/// fails.
#[test]
fn a_call_that_comes_to_no_event_is_told_no() {
    let mut driver = Driver::new();
    let lengths = [(1023, 768), (1025, 768), (1024, 767), (1024, 769), (0, 0)];
    let lengths = lengths.map(|(bytes, words)| Lengths { bytes, words, ..Lengths::RIGHT });
    let lengths: Vec<Lengths> = lengths.into_iter().chain(wrong_lengths()).collect();
    for cast in EDGES.map(Cast::of) {
        let (state, unsound) = (cast.state(), cast.unsound());
        for call in cast.every_call() {
            driver.must_hear_when((Lengths::RIGHT, FAILING), NO, ORDER, &state, call);
            for order in [Q, FAILING] {
                for &lengths in &lengths {
                    driver.must_hear_when((lengths, order), NO, STATE, &state, call);
                }
                for state in unsound.iter().filter(|_| call.code != code::START) {
                    driver.must_hear_when((Lengths::RIGHT, order), NO, STATE, state, call);
                }
            }
        }
    }
}

/// Cut to 8 or to 16 bits, these lengths would be 128.
#[test]
fn a_call_with_a_list_that_is_far_too_long_is_told_no() {
    let cast = Cast::of(1);
    let (mut bytes, mut words) = ([0; BYTES], [0; WORDS]);
    cast.state().write(&mut bytes, &mut words);
    for length in [128 + 256, 128 + 65536] {
        let mut tallies = vec![Tally::default(); length];
        for call in cast.every_call() {
            let answer = ffi::perform(&mut bytes, &mut words, &mut tallies, Q, call);
            must_be(answer, NO, STATE, call);
        }
        let answer = ffi::load(&mut bytes, &mut words, &mut tallies, Q, b"");
        assert_eq!((answer.verdict, answer.told), (STATE, NO_WORD));
    }
}

/// Nor has a code that names none, though some would if they were cut.
#[test]
fn no_other_call_has_a_word() {
    let mut driver = Driver::new();
    for cast in numbers().map(Cast::of) {
        let (state, Cast { asker, driver: through, other, object, free, .. }) =
            (cast.state(), cast);
        let named = [asker, through, object];
        let unasked = cast.unasked().into_iter();
        let others = [
            (request(code::START, &named), GRANTED),
            (request(code::MARK, &[object]), NUMBER),
            (request(code::STEP, &[free]), NUMBER),
            (request(code::STEP, &[other]), STILL),
        ];
        for (call, verdict) in unasked.chain(others) {
            driver.must_hear(NO_WORD, verdict, &state, call);
        }
        for code in [16, 32, 128, 256, 512, 4096, 32768, 65520].map(|more| more + asker % 16) {
            driver.must_hear(NO_WORD, NUMBER, &state, request(code, &named));
        }
    }
}

#[test]
fn a_load_has_no_word() {
    let mut pair = Pair::new("told words of loads");
    let list = Lengths { tallies: 127, ..Lengths::RIGHT };
    let granted = ["", BEGUN].map(|text| (text.as_bytes().to_vec(), GRANTED));
    for (text, verdict) in texts::refused().into_iter().chain(granted) {
        for (lengths, order, verdict) in [
            (Lengths::RIGHT, Q, verdict),
            (Lengths::RIGHT, FAILING, ORDER),
            (SHORT, Q, STATE),
            (list, Q, STATE),
        ] {
            let answer = pair.load_with(lengths, order, &text);
            assert_eq!((answer.verdict, answer.told), (verdict, NO_WORD));
        }
    }
}

// ----------------------------------------------------------- with and without a mark

/// Calls from a start, each granted, then with nobody marked and with this task marked some
/// more calls: what these answer.
fn without_and_with_a_mark<const N: usize>(
    order: Order,
    calls: &[Request],
    task: Number,
    then: [Request; N],
) -> [[(u8, u8); N]; 2] {
    let mark = request(code::MARK, &[task]);
    [None, Some(&mark)].map(|mark| {
        let mut pair = Pair::started("with and without a mark", order);
        for &call in calls.iter().chain(mark) {
            assert_eq!(pair.perform(order, call).verdict, GRANTED, "{call:?}");
        }
        then.map(|call| {
            let answer = pair.perform(order, call);
            (answer.verdict, answer.told)
        })
    })
}

/// Under Q the driver 2 at the top with its object 20 at 2, and the task 1 at 1.
fn unrelated() -> [Request; 4] {
    [
        request(code::CREATE_ROOT, &[0, 0, 10, 3]),
        request(code::EXECUTE, &[0, 10, 1, 1, 1]),
        request(code::EXECUTE, &[0, 10, 2, 3, 3]),
        request(code::CREATE_ROOT, &[0, 2, 20, 2]),
    ]
}

/// The trials P7 and P8: the verdict shows the driver's mark, the word does not.
#[test]
fn a_read_that_is_refused_or_slips() {
    let read = request(code::READ, &[1, 2, 20]);
    let [unmarked, marked] = without_and_with_a_mark(Q, &unrelated(), 2, [read]);
    assert_eq!(unmarked, [(RULE, NO)]);
    assert_eq!(marked, [(SLIPPED, NO)]);
}

/// The word covers one call: a slip records an access, and the next call's word shows it.
#[test]
fn what_a_slip_records_is_told_later() {
    let mut calls = unrelated().to_vec();
    calls.push(request(code::WRITE, &[2, 2, 20]));
    let then = [request(code::WRITE, &[1, 2, 20]), request(code::CREATE, &[1, 2, 30, 20, 0])];
    let [unmarked, marked] = without_and_with_a_mark(Q, &calls, 2, then);
    assert_eq!(unmarked, [(RULE, NO), (HELD, NO)]);
    assert_eq!(marked, [(SLIPPED, NO), (GRANTED, YES)]);
}

/// Task 3 reads the file 20 of the driver 2. If a deletion had a word, it would show the mark.
#[test]
fn a_deletion_that_is_granted_or_refused() {
    let calls = [
        request(code::CREATE_ROOT, &[0, 0, 1, 0]),
        request(code::EXECUTE, &[0, 1, 2, 0, 0]),
        request(code::EXECUTE, &[0, 1, 3, 0, 0]),
        request(code::WRITE, &[0, 0, 1]),
        request(code::WRITE, &[2, 0, 1]),
        request(code::CREATE, &[0, 2, 20, 1, 0]),
        request(code::READ, &[3, 2, 20]),
    ];
    let delete = request(code::DELETE, &[0, 2, 20, 1]);
    let [unmarked, marked] = without_and_with_a_mark(FLAT, &calls, 2, [delete]);
    assert_eq!(unmarked, [(GRANTED, NO_WORD)]);
    assert_eq!(marked, [(FEEDING, NO_WORD)]);
}

// ----------------------------------------------------------------- marks redrawn

/// How many pairs of a call were compared, of how many the driver was told yes and no, and
/// how many had verdicts that differ.
#[derive(Clone, Copy, Debug, Default)]
struct Count {
    pairs: u64,
    yes: u64,
    no: u64,
    unlike: u64,
}

/// One call on two memories that differ in who is marked, and beside that in their lists.
struct Twins {
    rng: Rng,
    pair: Pair,
    counts: BTreeMap<u16, Count>,
}

impl Twins {
    fn new(seed: u64) -> Twins {
        let pair = Pair::new(format!("twins of TUPEHIWO_SEED={seed}"));
        Twins { rng: Rng::new(seed), pair, counts: BTreeMap::new() }
    }

    /// The same with other marks of all things in use, or of one that the call names.
    fn redrawn(&mut self, state: &State, call: Request) -> State {
        let mut redrawn = state.clone();
        let named = [call.a, call.b, call.c, call.d, call.e];
        let (all, one) = (!self.rng.once_in(4), self.rng.pick(&named[..how_many(call.code)]));
        for (n, _) in state.used().filter(|&(n, _)| all || n == one) {
            worlds::draw_mark(&mut self.rng, &mut redrawn, n);
        }
        redrawn
    }

    /// Under this order and, now and then, another; a length may be wrong.
    fn ask(&mut self, state: &State, usual: Order, call: Request) {
        let other = self.rng.once_in(10);
        let order = if other { worlds::other_order(&mut self.rng, usual) } else { usual };
        let lengths = worlds::lengths(&mut self.rng);
        let redrawn = self.redrawn(state, call);
        if redrawn == *state {
            return;
        }
        let answers = [state.clone(), redrawn].map(|state| {
            self.pair.set_state(state);
            self.pair.set_tallies(worlds::tallies(&mut self.rng));
            self.pair.perform_with(lengths, order, call)
        });
        let [first, second] = answers.map(|answer| answer.told);
        assert_eq!(first, second, "marks alone: {answers:?} of {call:?} under {order:?}");
        self.count(call.code, answers);
    }

    /// One of the moves that slip by a mark, if there is any: among random ones they are rare.
    fn ask_for_a_slip(&mut self, state: &State, order: Order) {
        let moves = moves_too_high(state, &order);
        if let Some(call) = self.rng.pick_any(moves.iter().copied()) {
            self.ask(state, order, call);
        }
    }

    /// Marks make a difference only between these two verdicts.
    fn count(&mut self, code: u16, answers: [Answer; 2]) {
        let count = self.counts.entry(code).or_default();
        count.pairs += 1;
        count.yes += u64::from(answers[0].told == YES);
        count.no += u64::from(answers[0].told == NO);
        let mut verdicts = answers.map(|answer| answer.verdict);
        verdicts.sort();
        if verdicts[0] != verdicts[1] {
            count.unlike += 1;
            let shown = if code == code::DELETE { [GRANTED, FEEDING] } else { [SLIPPED, RULE] };
            assert_eq!(verdicts, shown, "{}", CALLS[usize::from(code)]);
        }
    }

    /// Of each of the eight, pairs told yes and pairs told no, more than `least`; and as many
    /// whose verdicts differ, where they can: those of deletions say why these have no word.
    fn must_have_met(&self, place: &str, least: u64) {
        let name = |code: u16| CALLS[usize::from(code)];
        let told = self.counts.iter().map(|(&code, count)| {
            let Count { pairs, yes, no, unlike } = count;
            format!("{} {pairs} / {yes} / {no} / {unlike}", name(code))
        });
        let told = told.collect::<Vec<_>>().join(", ");
        println!("of the words told {place}, pairs / yes / no / unlike verdicts: {told}");
        for code in code::READ..=code::INVOKE {
            let Count { yes, no, unlike, .. } = self.counts.get(&code).copied().unwrap_or_default();
            let heard = code != code::DELETE;
            let shown = [code::READ, code::WRITE, code::MOVE, code::DELETE].contains(&code);
            let words = if heard { yes > least && no > least } else { yes + no == 0 };
            assert!(words, "{}: {yes} told yes, {no} told no", name(code));
            let verdicts = if shown { unlike > least } else { unlike == 0 };
            assert!(verdicts, "{}: {unlike} unlike verdicts", name(code));
        }
    }
}

/// The moves that nothing forbids but that the object is not at or below the asker.
fn moves_too_high(state: &State, order: &Order) -> Vec<Request> {
    let under = |object: Object, level| at_or_below(order, object.level, level);
    let below = |object, e| state.task(e).is_ok_and(|task| under(object, task.level));
    let may_write = |e, ends: [Number; 2]| ends.iter().all(|&o| state.writes.contains(&(e, o)));
    let contained = state.objects().filter_map(|(n, object)| Some((n, object, object.container?)));
    let mut moves = Vec::new();
    for (n, object, from) in contained.filter(|&(_, object, _)| below(object, object.driver)) {
        let driver = object.driver;
        let others = state.objects().filter(|&(to, _)| ![n, from].contains(&to));
        let higher = others.filter(|&(_, target)| under(object, target.level));
        for to in higher.map(|(to, _)| to).filter(|&to| may_write(driver, [from, to])) {
            let askers = state.tasks().filter(|&e| !below(object, e) && may_write(e, [from, to]));
            moves.extend(askers.map(|e| request(code::MOVE, &[e, driver, n, from, to])));
        }
    }
    moves
}

const LISTS: u64 = 250;
const CALLS_OF_A_LIST: usize = 400;
/// How many numbers new things get.
const POOLS: [usize; 4] = [7, 10, 16, 30];

/// In a list a move slips only by accesses that have slipped, so there are more marks than in
/// other lists.
const ONE_MARK_OF: usize = 25;
const ONE_SLIP_OF: usize = 4;

/// One of the two is a state that a list of calls has come to.
#[test]
fn marks_redrawn_in_lists() {
    let first = seed("marks_redrawn_in_lists");
    let mut twins = Twins::new(first);
    for number in 0..LISTS {
        let mut list = List::begin(first.wrapping_add(number), worlds::order, &POOLS);
        for _ in 0..CALLS_OF_A_LIST {
            let marking = list.rng.once_in(ONE_MARK_OF);
            let mut author = list.author();
            let call = if marking { author.request_of(code::MARK) } else { author.request() };
            if (code::READ..=code::INVOKE).contains(&call.code) {
                twins.ask(&list.pair.model.state, list.order, call);
            }
            if list.rng.once_in(ONE_SLIP_OF) {
                twins.ask_for_a_slip(&list.pair.model.state, list.order);
            }
            let order = list.order_for(call);
            list.perform(Lengths::RIGHT, order, call);
        }
    }
    twins.must_have_met("in lists", 50);
}

const MEMORIES: u64 = 4000;

/// Both are sound, and no list need leave either.
#[test]
fn marks_redrawn_on_any_memory() {
    let mut twins = Twins::new(seed("marks_redrawn_on_any_memory"));
    let pool: Vec<Number> = numbers().collect();
    let mut unreached: BTreeMap<&str, u64> = BTreeMap::new();
    for _ in 0..MEMORIES {
        let order = worlds::order(&mut twins.rng);
        let state = match twins.rng.once_in(10) {
            true => worlds::sound_state(&mut twins.rng, &order),
            false => worlds::dense_state(&mut twins.rng, &order),
        };
        for (what, found) in worlds::unreached(&state, &order) {
            *unreached.entry(what).or_default() += u64::from(found);
        }
        for code in (code::READ..=code::INVOKE).flat_map(|code| [code; 2]) {
            let rng = &mut twins.rng;
            let call = Author { rng, state: &state, order: &order, pool: &pool }.request_of(code);
            twins.ask(&state, order, call);
            if code == code::MOVE {
                twins.ask_for_a_slip(&state, order);
            }
        }
    }
    twins.must_have_met("on any memory", 50);
    assert!(unreached.values().all(|&memories| memories > MEMORIES / 50), "{unreached:?}");
}
