//! The safe Rust face: each method makes the call that it names.

use std::collections::BTreeSet;

use tupehiwo::ffi::{self, Order, Request, code};
use tupehiwo::{Answer, Monitor, Told, Verdict, layout};
use tupehiwo_tests::author::Author;
use tupehiwo_tests::model::{BYTES, Lengths, Model, NOTHING_COUNTED, State, WORDS};
use tupehiwo_tests::rng::{Rng, seed};
use tupehiwo_tests::table::VERDICTS;
use tupehiwo_tests::{prefix, texts, worlds};

/// The method of a request.
fn by_method(monitor: &mut Monitor, order: Order, request: Request) -> Answer {
    let Request { code, a, b, c, d, e } = request;
    let verdict = match code {
        code::START => monitor.start(order),
        code::READ => monitor.read(a, b, c),
        code::WRITE => monitor.write(a, b, c),
        code::EXECUTE => monitor.execute(a, b, c, d, e),
        code::CREATE => monitor.create(a, b, c, d, e),
        code::CREATE_ROOT => monitor.create_root(a, b, c, d),
        code::MOVE => monitor.move_object(a, b, c, d, e),
        code::DELETE => monitor.delete(a, b, c, d),
        code::CALL => monitor.call(a, b),
        code::INVOKE => monitor.invoke(a, b),
        code::PASS => monitor.pass(a, b, c),
        code::POST => monitor.post(a, b, c),
        code::FIND => monitor.find(a, b, c),
        code::MARK => monitor.mark(a),
        code::STEP => monitor.step(a),
        code::SPREAD => return monitor.spread(),
        unknown => panic!("no method has the code {unknown}"),
    };
    Answer { verdict, rounds: 0 }
}

/// The word of an answer.
fn word(answer: ffi::Answer) -> Option<Told> {
    [None, Some(Told::Yes), Some(Told::No)][usize::from(answer.told)]
}

/// The monitor's memory must be that of the model, and its report the model's.
fn must_agree(monitor: &Monitor, model: &Model, order: &Order) {
    let (mut bytes, mut words) = ([0; BYTES], [0; WORDS]);
    model.state.write(&mut bytes, &mut words);
    assert!(*monitor.bytes() == bytes && *monitor.words() == words);
    assert!(*monitor.tallies() == model.tallies);
    assert_eq!(monitor.order(), *order);
    let (report, expected) = (monitor.report(), model.report(Lengths::RIGHT, order));
    assert_eq!(report.verdict() as u8, expected.verdict);
    assert_eq!((report.words(), report.ones()), (expected.words, expected.ones));
    let marked = model.state.used().filter(|(_, thing)| thing.is_marked());
    let marked = marked.map(|(n, _)| n).filter(|_| expected.verdict == 0);
    assert!(report.marked().eq(marked));
}

/// A monitor of zeros but for its list, and the model of it.
fn both(rng: &mut Rng) -> (Monitor, Model) {
    let tallies = worlds::tallies(rng);
    let monitor = Monitor::from_memory([0; BYTES], [0; WORDS], tallies, Order::default());
    let state = State::read(monitor.bytes(), monitor.words());
    (monitor, Model { state, tallies })
}

#[test]
fn each_method_makes_its_call() {
    let first = seed("each_method_makes_its_call");
    let pool: Vec<u16> = (1..20).chain(120..128).collect();
    for number in 0..40 {
        let mut rng = Rng::new(first.wrapping_add(number));
        let (mut monitor, mut model) = both(&mut rng);
        let mut order = Order::default();
        for call in 0..600 {
            let mut author =
                Author { rng: &mut rng, state: &model.state, order: &order, pool: &pool };
            // Some calls come before the first start, then one, then any.
            let request = if call == 5 { Request::default() } else { author.request() };
            if request.code > code::SPREAD {
                continue;
            }
            let next = if call == 5 { worlds::Q } else { worlds::other_order(&mut rng, worlds::Q) };
            let lent = if request.code == code::START { next } else { order };
            let answer = by_method(&mut monitor, next, request);
            let expected = model.perform(Lengths::RIGHT, &lent, request);
            let (verdict, rounds) = (answer.verdict as u8, answer.rounds);
            assert_eq!((verdict, rounds), (expected.verdict, expected.rounds), "{request:?}");
            assert_eq!(monitor.told(), word(expected), "{request:?}");
            if request.code == code::START && answer.verdict == Verdict::Granted {
                order = next;
            }
            must_agree(&monitor, &model, &order);
        }
    }
}

/// A load is the model's, and so is the order that the monitor keeps of it.
#[test]
fn a_load_makes_its_state() {
    let mut rng = Rng::new(seed("a_load_makes_its_state"));
    let (mut monitor, mut model) = both(&mut rng);
    let mut order = Order::default();
    for _ in 0..2000 {
        let usual = worlds::order(&mut rng);
        let failing = rng.once_in(4);
        let lent = if failing { worlds::other_order(&mut rng, usual) } else { usual };
        let text = texts::any(&mut rng, &usual);
        let verdict = monitor.load(lent, &text);
        assert_eq!(verdict as u8, model.load(Lengths::RIGHT, &lent, &text).0.verdict);
        if ![Verdict::State, Verdict::Order].contains(&verdict) {
            order = lent;
        }
        must_agree(&monitor, &model, &order);
    }
}

/// The line and column of an offset, counted by the lines before it.
fn place_of(text: &[u8], offset: usize) -> (usize, usize) {
    let lines: Vec<&[u8]> = text[..offset].split(|&byte| byte == b'\n').collect();
    (lines.len(), 1 + lines[lines.len() - 1].len())
}

#[test]
fn a_text_is_checked() {
    let mut rng = Rng::new(seed("a_text_is_checked"));
    let mut faults = [0; 2];
    for _ in 0..4000 {
        let order = worlds::order(&mut rng);
        let text = texts::any(&mut rng, &order);
        let found = prefix::find(&text);
        match layout::check(&text) {
            Ok(()) => assert_eq!(found.verdict as u8, Verdict::Granted as u8),
            Err(fault) => {
                assert_eq!(
                    (fault.verdict as u8, fault.offset),
                    (found.verdict as u8, found.offset)
                );
                assert_eq!((fault.line, fault.column), place_of(&text, fault.offset));
                let (line, column) = (fault.line, fault.column);
                let said = format!("{}, line {line}, column {column}", fault.verdict);
                assert_eq!(fault.to_string(), said);
                faults[usize::from(fault.verdict == Verdict::Deep)] += 1;
            }
        }
    }
    assert!(faults.iter().all(|&count| count > 100), "{faults:?}");
}

/// Each tally by its number, and whom to ring: those that were refused, rising.
#[test]
fn tallies_are_told() {
    let mut rng = Rng::new(seed("tallies_are_told"));
    for share in [1, 2, 40, 1000].repeat(20) {
        let mut tallies = worlds::tallies(&mut rng);
        let refused: BTreeSet<u16> = (0..128).filter(|_| rng.once_in(share)).collect();
        for (n, tally) in (0..).zip(&mut tallies) {
            let counted = rng.pick(&[1, 2, 1 << 16, 1 << 31, u32::MAX]);
            tally.refused = if refused.contains(&n) { counted } else { 0 };
        }
        let monitor = Monitor::from_memory([0; BYTES], [0; WORDS], tallies, Order::default());
        assert!((0..128).map(|n| monitor.tally(n)).eq(tallies.map(Some)));
        assert!([128, 129, 255, 256, 65535].iter().all(|&n| monitor.tally(n).is_none()));
        let told = refused.iter().map(|&n| (n, tallies[usize::from(n)]));
        assert!(monitor.refused().eq(told), "{refused:?}");
    }
}

#[test]
fn memory_can_be_handed_on() {
    let mut first = Monitor::new();
    assert_eq!(first.start(worlds::Q), Verdict::Granted);
    assert_eq!(first.create_root(0, 0, 9, 2), Verdict::Granted);
    let (bytes, words, tallies) = (*first.bytes(), *first.words(), *first.tallies());
    let mut second = Monitor::from_memory(bytes, words, tallies, first.order());
    assert_eq!(first.mark(0), second.mark(0));
    assert_eq!(first, second);
    assert!(second.report().marked().eq([0, 9]));
}

/// What was told last makes no difference, each part of the memory and the order does.
#[test]
fn monitors_are_equal_by_memory_and_order() {
    let mut monitor = Monitor::new();
    assert_eq!(monitor.start(worlds::Q), Verdict::Granted);
    assert_eq!(monitor.call(0, 0), Verdict::Granted);
    let (bytes, words, tallies) = (*monitor.bytes(), *monitor.words(), *monitor.tallies());
    let same = Monitor::from_memory(bytes, words, tallies, worlds::Q);
    assert_eq!((same.told(), monitor.told()), (None, Some(Told::Yes)));
    assert_eq!(same, monitor);
    assert_ne!(Monitor::from_memory([0; BYTES], words, tallies, worlds::Q), monitor);
    assert_ne!(Monitor::from_memory(bytes, [0; WORDS], tallies, worlds::Q), monitor);
    assert_ne!(Monitor::from_memory(bytes, words, NOTHING_COUNTED, worlds::Q), monitor);
    assert_ne!(Monitor::from_memory(bytes, words, tallies, worlds::FLAT), monitor);
}

/// Each call without a word, granted or refused, comes after one that has a word.
#[test]
fn the_last_call_is_told() {
    let mut monitor = Monitor::new();
    assert_eq!(monitor.told(), None);
    assert_eq!(monitor.call(0, 0), Verdict::State);
    assert_eq!(monitor.told(), Some(Told::No));
    type Wordless = fn(&mut Monitor) -> Verdict;
    let wordless: [(Wordless, Verdict); 6] = [
        (|monitor| monitor.start(worlds::Q), Verdict::Granted),
        (|monitor| monitor.start(worlds::FAILING), Verdict::Order),
        (|monitor| monitor.load(worlds::Q, b""), Verdict::Granted),
        (|monitor| monitor.load(worlds::Q, b"("), Verdict::Form),
        (|monitor| monitor.load(worlds::FAILING, b""), Verdict::Order),
        (|monitor| monitor.spread().verdict, Verdict::Granted),
    ];
    for (call, verdict) in wordless {
        assert_eq!(call(&mut monitor), verdict);
        assert_eq!(monitor.told(), None, "{verdict}");
        assert_eq!(monitor.call(0, 0), Verdict::Granted);
        // A report is not a call.
        assert_eq!(monitor.report().verdict(), Verdict::Granted);
        assert_eq!(monitor.told(), Some(Told::Yes));
    }
    assert_eq!(monitor.clone().told(), Some(Told::Yes));
    assert_eq!([Told::Yes, Told::No].map(Told::word), ["yes", "no"]);
    assert_eq!([Told::Yes, Told::No].map(|told| told.to_string()), ["yes", "no"]);
}

#[test]
fn verdicts_have_their_numbers_and_words() {
    for (number, word) in (0..).zip(VERDICTS) {
        let verdict = Verdict::from_number(number).expect("a verdict of the table");
        assert_eq!((verdict as u8, verdict.word()), (number, word));
        assert_eq!(verdict.to_string(), word);
        assert_eq!(verdict.is_done(), number < 2);
    }
    assert_eq!(Verdict::from_number(17), None);
}
