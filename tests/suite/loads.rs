//! Power-up layouts: every text near a good one, the depths, lengths and numbers at
//! their edges, each verdict of a load with its cause, and what a load leaves.

use tupehiwo::ffi::{self, Order, code};
use tupehiwo_tests::author::Author;
use tupehiwo_tests::compare::Pair;
use tupehiwo_tests::model::{Lengths, Verdict, calls, read_layout};
use tupehiwo_tests::rng::{Rng, seed};
use tupehiwo_tests::texts::{self, NUMBERS, adjoining, nested, written};
use tupehiwo_tests::worlds::{self, FAILING, Q, SHORT};
use tupehiwo_tests::{prefix, request};

/// The paper's sample.
const SAMPLE: &str = "(object 10 driver 0 level 3\n\
                      (object 11 driver 0 level 2))\n\
                      (task 1 image 11 level 2 reads 0)\n";

/// The library's verdict of a load on fresh memory, the model's too.
fn verdict_of(order: Order, text: &str) -> u8 {
    Pair::new("one load").load(order, text.as_bytes()).verdict
}

/// What a text alone settles, of library and automaton.
fn must_settle(text: &[u8], verdict: Verdict, offset: usize) {
    let found = prefix::find(text);
    assert_eq!((found.verdict, found.offset), (verdict, offset), "the automaton");
    let checked = ffi::layout(text);
    assert_eq!((checked.verdict, checked.offset as usize), (verdict as u8, offset));
}

// ------------------------------------------------------------------ layouts

/// A granted load leaves what a start and the layout's calls leave, one by one.
#[test]
fn a_load_is_a_start_and_its_calls() {
    let mut rng = Rng::new(seed("a_load_is_a_start_and_its_calls"));
    for number in 0..300 {
        let order = worlds::order(&mut rng);
        let most = rng.pick(&[1, 3, 10, 40, 127]);
        let forms = texts::granted(&mut rng, &order, most);
        let text = written(&forms);
        assert_eq!(read_layout(&text), Ok(forms.clone()), "the text has one reading");
        let mut loaded = Pair::new(format!("layout {number}"));
        loaded.set_state(worlds::sound_state(&mut rng, &order));
        assert_eq!(loaded.load(order, &text).verdict, 0);
        let mut called = Pair::started(format!("calls of layout {number}"), order);
        for call in calls(&forms) {
            assert_eq!(called.perform(order, call).verdict, 0, "{call:?}");
        }
        assert!(loaded.has_memory_of(&called), "layout {number}");
    }
}

/// The same with a number changed: up to the first call that is refused, whose
/// verdict is the load's. The state is then that of a start.
#[test]
fn a_load_ends_at_the_first_refused_call() {
    let mut rng = Rng::new(seed("a_load_ends_at_the_first_refused_call"));
    let mut refused = 0;
    for number in 0..1500 {
        let order = worlds::order(&mut rng);
        let mut text = written(&texts::granted(&mut rng, &order, 12));
        texts::change_number(&mut rng, &order, &mut text);
        let forms = read_layout(&text).expect("a changed number leaves the text in the grammar");
        let mut loaded = Pair::new(format!("layout {number}"));
        let verdict = loaded.load(order, &text).verdict;
        let mut called = Pair::started(format!("calls of layout {number}"), order);
        let mut verdicts =
            calls(&forms).into_iter().map(|call| called.perform(order, call).verdict);
        assert_eq!(verdicts.find(|&verdict| verdict != 0).unwrap_or(0), verdict, "{number}");
        if verdict != 0 {
            refused += 1;
            assert!(loaded.has_memory_of(&Pair::started("start", order)), "layout {number}");
        }
    }
    assert!(refused > 500, "{refused} refused");
}

#[test]
fn the_sample_is_granted() {
    let mut pair = Pair::new("sample");
    assert_eq!(pair.load(Q, SAMPLE.as_bytes()).verdict, 0);
    assert_eq!((pair.byte(80), pair.byte(84), pair.byte(88), pair.byte(92)), (2, 255, 2, 10));
    assert_eq!((pair.byte(8), pair.byte(9), pair.byte(10)), (1, 2, 0));
    // The core wrote to 10, twice: for itself and as the driver of 11.
    assert_eq!((pair.flows(), pair.has_flow(0, 10)), (1, true));
}

/// The driver's write is its own, and not the core's.
#[test]
fn a_driver_writes_to_the_container() {
    let text = "(object 10 driver 0 level 3)\n(task 1 image 10 level 3 reads 3)\n\
                (object 20 driver 1 level 3\n(object 21 driver 1 level 2\n\
                (object 22 driver 0 level 2))\n(object 23 driver 0 level 0))\n";
    let mut pair = Pair::new("writes");
    assert_eq!(pair.load(Q, text.as_bytes()).verdict, 0);
    let expected = [(0, 20), (1, 20), (0, 21)];
    assert_eq!(pair.flows(), 3);
    assert!(expected.iter().all(|&(from, to)| pair.has_flow(from, to)));
}

#[test]
fn the_empty_text_is_granted() {
    let mut pair = Pair::new("empty");
    assert_eq!(pair.load(Q, b"").verdict, 0);
    assert!(pair.has_memory_of(&Pair::started("start", Q)));
    must_settle(b"", Verdict::Granted, 0);
}

// -------------------------------------------------------------------- texts

/// Small good texts with all that the grammar has.
const GOOD: [&str; 3] = [
    SAMPLE,
    "(object 5 driver 0 level 0)\n(object 100 driver 0 level 3\n(object 9 driver 0 level 0\n\
     (object 10 driver 0 level 0))\n(object 11 driver 0 level 1))\n",
    "",
];

/// Every text that differs by one byte changed, left out or put in.
#[test]
fn every_text_near_a_good_one() {
    let mut pair = Pair::new("near texts");
    let mut settled = [0; 3];
    let mut load = |text: &[u8]| {
        pair.load(Q, text);
        let verdict = prefix::find(text).verdict;
        let place = [Verdict::Granted, Verdict::Form, Verdict::Deep].iter();
        settled[place.take_while(|&&other| other != verdict).count()] += 1;
    };
    for good in GOOD {
        let good = good.as_bytes();
        for place in 0..=good.len() {
            for byte in 0..=255 {
                let mut text = good.to_vec();
                text.insert(place, byte);
                load(&text);
                if place < good.len() {
                    text.remove(place + 1);
                    load(&text);
                }
            }
            load(&good[..place]);
            load(&[&good[..place], &good[(place + 1).min(good.len())..]].concat());
        }
    }
    assert!(settled[0] > 500 && settled[1] > 100_000, "{settled:?}");
}

/// Two of the grammar's own bytes changed, in every pair of places of a short text.
#[test]
fn every_text_two_bytes_off() {
    let good = b"(task 1 image 10 level 2 reads 0)\n";
    let bytes = b"() 012\nt";
    let mut pair = Pair::new("two bytes off");
    for (first, second) in (0..good.len()).flat_map(|a| (a + 1..good.len()).map(move |b| (a, b))) {
        for (&a, &b) in bytes.iter().flat_map(|a| bytes.iter().map(move |b| (a, b))) {
            let mut text = good.to_vec();
            (text[first], text[second]) = (a, b);
            pair.load(Q, &text);
        }
    }
}

/// What stands in no layout, and where the fault is.
const OUTSIDE: [(&str, usize); 32] = [
    ("\n", 0),
    (" (object 1 driver 0 level 0)\n", 0),
    ("(object 1 driver 0 level 0)", 27),
    ("(object 1 driver 0 level 0)\n\n", 28),
    ("(object 1 driver 0 level 0) \n", 27),
    ("(object 1 driver 0 level 0)(object 2 driver 0 level 0)\n", 27),
    ("(object 1 driver 0 level 0))\n", 27),
    ("(object 1 driver 0 level 0\n)\n", 27),
    ("(object 1 driver 0 level 0\n(object 2 driver 0 level 0)\n)\n", 55),
    ("(object 1 driver 0 level 0\n(task 2 image 1 level 0 reads 0))\n", 28),
    ("(task 2 image 1 level 0 reads 0\n(object 1 driver 0 level 0))\n", 31),
    ("(object 1 driver 0 level 0 (object 2 driver 0 level 0))\n", 26),
    ("(object 1 driver 0 level 0\r\n", 26),
    ("(object 1 driver 0 level 0)\r\n", 27),
    ("(object\t1 driver 0 level 0)\n", 7),
    ("(object  1 driver 0 level 0)\n", 8),
    ("( object 1 driver 0 level 0)\n", 1),
    ("(Object 1 driver 0 level 0)\n", 1),
    ("(object +1 driver 0 level 0)\n", 8),
    ("(object -1 driver 0 level 0)\n", 8),
    ("(object 01 driver 0 level 0)\n", 9),
    ("(object 00 driver 0 level 0)\n", 9),
    ("(object 007 driver 0 level 0)\n", 9),
    ("(object 1000 driver 0 level 0)\n", 11),
    ("(object 1 driver 0 level 0 )\n", 26),
    ("(object 1 driver  level 0)\n", 17),
    ("(object 1 level 0 driver 0)\n", 10),
    ("(object 1 driver 0 level 0)\0\n", 27),
    ("; a remark\n", 0),
    ("(task 1 image 1 level 0)\n", 23),
    ("(", 1),
    ("(object 1 driver 0 level 0\n", 27),
];

#[test]
fn texts_outside_the_grammar() {
    for (text, offset) in OUTSIDE {
        assert_eq!(verdict_of(Q, text), 14, "{text:?}");
        must_settle(text.as_bytes(), Verdict::Form, offset);
    }
}

// ------------------------------------------------------ depths and lengths

/// Objects in each other to every depth that 16 KiB can hold.
#[test]
fn every_depth() {
    let mut pair = Pair::new("depths");
    for depth in 1..=585 {
        let mut text = nested(depth, |place| if depth <= 8 { place + 1 } else { 0 });
        let expected = if depth <= 8 { 0 } else { 15 };
        assert_eq!(pair.load(Q, &text).verdict, expected, "{depth} levels");
        let (verdict, offset) =
            if depth <= 8 { (Verdict::Granted, text.len()) } else { (Verdict::Deep, 8 * 27) };
        must_settle(&text, verdict, offset);
        // A slip of form behind a ninth level is told first.
        text.pop();
        assert_eq!(pair.load(Q, &text).verdict, 14, "{depth} levels without their end");
        must_settle(&text, Verdict::Form, text.len());
    }
    assert_eq!(nested(585, |_| 0).len(), 16_380);
}

/// Objects beside each other in one, and beside each other in none.
#[test]
fn every_number_of_siblings() {
    let mut pair = Pair::new("siblings");
    for count in 0..=584 {
        let numbered = adjoining(count, |place| if count < 500 { place + 1 } else { 1 });
        let expected = match count {
            0..=126 => 0,
            127..500 => 4,
            _ => 5,
        };
        assert_eq!(pair.load(Q, &numbered).verdict, expected, "{count} in one");
        must_settle(&numbered, Verdict::Granted, numbered.len());
        let roots: String =
            (0..=count).map(|n| format!("(object {} driver 0 level 0)\n", n % 9 + 1)).collect();
        let expected = if count < 9 { 0 } else { 5 };
        assert_eq!(pair.load(Q, roots.as_bytes()).verdict, expected, "{count} beside one");
    }
    assert_eq!(adjoining(584, |_| 1).len(), 16_380);
}

/// A ninth level may stand anywhere, and again: the first one's bracket is told.
#[test]
fn a_ninth_level_anywhere() {
    let mut rng = Rng::new(seed("a_ninth_level_anywhere"));
    let mut pair = Pair::new("ninth levels");
    let deep = nested(9, |_| 0);
    for _ in 0..300 {
        let parts = 1 + rng.below(4);
        let part = |rng: &mut Rng| match rng.below(3) {
            0 => nested(1 + rng.below(12), |_| 0),
            1 => b"(task 1 image 2 level 0 reads 0)\n".to_vec(),
            _ => written(&texts::granted(rng, &Q, 30)),
        };
        let mut text: Vec<u8> = (0..parts).flat_map(|_| part(&mut rng)).collect();
        text.extend(&deep);
        assert_eq!(pair.load(Q, &text).verdict, 15);
        let offset = ffi::layout(&text).offset as usize;
        let open = |&byte: &u8| i32::from(byte == b'(') - i32::from(byte == b')');
        assert_eq!(text[..offset].iter().map(open).sum::<i32>(), 8);
        assert!(text[offset..].starts_with(b"(object "));
    }
}

/// A text of so many bytes that is in the grammar: roots, numbers of one or two digits.
fn of_length(length: usize) -> Vec<u8> {
    let (lines, rest) = (length / 28, length % 28);
    let number = |line: usize| if line < rest { 10 } else { 1 };
    let line = |line: usize| format!("(object {} driver 0 level 0)\n", number(line));
    (0..lines).map(line).collect::<String>().into_bytes()
}

#[test]
fn every_length_about_the_longest() {
    let mut pair = Pair::new("long texts");
    for length in 16_300..=16_500 {
        let mut text = of_length(length);
        assert_eq!(text.len(), length);
        let fits = length <= 16_384;
        assert_eq!(pair.load(Q, &text).verdict, if fits { 5 } else { 14 }, "{length} bytes");
        let (verdict, offset) =
            if fits { (Verdict::Granted, length) } else { (Verdict::Form, 16_384) };
        must_settle(&text, verdict, offset);
        // The last byte at fault, which a text that is too long is not read to.
        text[length - 1] = b' ';
        assert_eq!(pair.load(Q, &text).verdict, 14, "{length} bytes, the last a space");
        must_settle(&text, Verdict::Form, (length - 1).min(16_384));
    }
}

/// A text that is too long is not looked at, whatever it holds.
#[test]
fn texts_far_too_long() {
    let mut pair = Pair::new("far too long");
    for length in [16_385, 16_386, 32_768, 65_535, 65_536, 65_564, 1 << 20, (1 << 24) + 28] {
        for byte in [b'\n', b'(', b')', b'0', 0, 255] {
            let text = vec![byte; length];
            assert_eq!(pair.load(Q, &text).verdict, 14);
            must_settle(&text, Verdict::Form, 16_384);
        }
        assert_eq!(pair.load(Q, &of_length(length)).verdict, 14);
        assert_eq!(
            pair.load(Q, &nested(length / 28, |_| 0)).verdict,
            if length < 16_412 { 15 } else { 14 }
        );
    }
}

// ----------------------------------------------------------------- verdicts

/// Under Q: a root image at the top, a task at 1 from it, a task at the top.
const BEGUN: &str = "(object 10 driver 0 level 3)\n(task 1 image 10 level 1 reads 0)\n\
                     (task 2 image 10 level 3 reads 3)\n";

/// What follows that, and the verdict of the call that is refused; of the first, where
/// two would be.
const REFUSED: [(&str, u8); 37] = [
    // roots
    ("(object 11 driver 128 level 0)\n", 4),
    ("(object 11 driver 9 level 0)\n", 4),
    ("(object 11 driver 10 level 0)\n", 4),
    ("(object 128 driver 0 level 0)\n", 4),
    ("(object 10 driver 0 level 0)\n", 5),
    ("(object 0 driver 0 level 0)\n", 5),
    ("(object 1 driver 0 level 0)\n", 5),
    ("(object 11 driver 0 level 4)\n", 9),
    ("(object 11 driver 0 level 300)\n", 9),
    ("(object 11 driver 1 level 2)\n", 11),
    ("(object 11 driver 1 level 3)\n", 11),
    // an object in another: the driver's write comes before all of the create
    ("(object 11 driver 0 level 3\n(object 12 driver 9 level 0))\n", 4),
    ("(object 11 driver 0 level 3\n(object 12 driver 12 level 0))\n", 4),
    ("(object 11 driver 0 level 3\n(object 12 driver 1 level 0))\n", 11),
    ("(object 11 driver 0 level 3\n(object 999 driver 1 level 0))\n", 11),
    ("(object 11 driver 0 level 3\n(object 11 driver 1 level 0))\n", 11),
    ("(object 11 driver 0 level 2\n(object 12 driver 1 level 999))\n", 11),
    ("(object 11 driver 0 level 2\n(object 999 driver 9 level 999))\n", 4),
    ("(object 11 driver 0 level 3\n(object 999 driver 0 level 0))\n", 4),
    ("(object 11 driver 0 level 3\n(object 11 driver 0 level 0))\n", 5),
    ("(object 11 driver 0 level 3\n(object 10 driver 0 level 999))\n", 5),
    ("(object 11 driver 0 level 3\n(object 12 driver 0 level 4))\n", 9),
    ("(object 11 driver 0 level 1\n(object 12 driver 0 level 2))\n", 11),
    ("(object 11 driver 0 level 1\n(object 12 driver 1 level 3))\n", 11),
    // tasks
    ("(task 3 image 9 level 0 reads 0)\n", 4),
    ("(task 3 image 2 level 0 reads 0)\n", 4),
    ("(task 3 image 255 level 0 reads 0)\n", 4),
    ("(task 128 image 10 level 0 reads 0)\n", 4),
    ("(task 2 image 10 level 0 reads 0)\n", 5),
    ("(task 10 image 10 level 0 reads 0)\n", 5),
    ("(task 3 image 10 level 4 reads 0)\n", 9),
    ("(task 3 image 10 level 3 reads 4)\n", 9),
    ("(task 3 image 10 level 1 reads 2)\n", 11),
    ("(task 3 image 10 level 0 reads 3)\n", 11),
    ("(object 11 driver 0 level 1)\n(task 3 image 11 level 2 reads 0)\n", 11),
    // the first of two refusals
    ("(task 3 image 9 level 9 reads 9)\n(object 10 driver 0 level 0)\n", 4),
    ("(object 10 driver 0 level 9)\n(task 3 image 9 level 9 reads 9)\n", 5),
];

/// Each verdict of a call with its cause.
#[test]
fn each_verdict_of_a_call() {
    for (text, verdict) in REFUSED {
        let mut pair = Pair::new(text);
        assert_eq!(pair.load(Q, format!("{BEGUN}{text}").as_bytes()).verdict, verdict, "{text}");
        assert!(pair.has_memory_of(&Pair::started("start", Q)), "{text}");
    }
    assert_eq!(verdict_of(Q, BEGUN), 0);
}

/// What a load is refused with where several rows apply: 2, 3, 14, 15, a call's.
#[test]
fn the_order_of_the_refusals() {
    let deep = String::from_utf8(nested(9, |_| 0)).expect("a text");
    let refused = "(object 0 driver 0 level 0)\n";
    let unformed = "(object 0 driver 0 level 0) \n";
    let rows: [(Lengths, Order, String, u8); 9] = [
        (SHORT, FAILING, format!("{refused}{deep}{unformed}"), 2),
        (SHORT, Q, SAMPLE.to_string(), 2),
        (SHORT, Q, unformed.to_string(), 2),
        (Lengths::RIGHT, FAILING, format!("{refused}{deep}{unformed}"), 3),
        (Lengths::RIGHT, FAILING, SAMPLE.to_string(), 3),
        (Lengths::RIGHT, Q, format!("{refused}{deep}{unformed}"), 14),
        (Lengths::RIGHT, Q, format!("{unformed}{deep}{refused}"), 14),
        (Lengths::RIGHT, Q, format!("{refused}{deep}"), 15),
        (Lengths::RIGHT, Q, format!("{deep}{refused}"), 15),
    ];
    for (lengths, order, text, verdict) in rows {
        let mut pair = Pair::started("rows", Q);
        assert_eq!(pair.perform(Q, request(code::CREATE_ROOT, &[0, 0, 77, 3])).verdict, 0);
        let before = pair.byte(8 * 77);
        assert_eq!(pair.load_with(lengths, order, text.as_bytes()).verdict, verdict, "{text}");
        // Refused with 2 and 3 a load changes nothing, else it leaves a start.
        let kept = if verdict <= 3 { before } else { 0 };
        assert_eq!((pair.byte(8 * 77), pair.byte(0)), (kept, 1), "{text}");
    }
}

/// Texts with a number left open, in each place that has one.
const PLACES: [&str; 13] = [
    "(object N driver 0 level 3)\n",
    "(object 10 driver N level 3)\n",
    "(object 10 driver 0 level N)\n",
    "(object 10 driver 0 level 3\n(object N driver 0 level 3))\n",
    "(object 10 driver 0 level 3\n(object 11 driver N level 3))\n",
    "(object 10 driver 0 level 3\n(object 11 driver 0 level N))\n",
    "(object N driver 0 level 3\n(object 11 driver 0 level 3))\n",
    "(object 10 driver 0 level 3)\n(task N image 10 level 0 reads 0)\n",
    "(object 10 driver 0 level 3)\n(task 1 image N level 0 reads 0)\n",
    "(object 10 driver 0 level 3)\n(task 1 image 10 level N reads 0)\n",
    "(object 10 driver 0 level 3)\n(task 1 image 10 level 0 reads N)\n",
    "(object 10 driver 0 level 3)\n(task N image 10 level 3 reads 3)\n(object 20 driver N level 0)\n",
    "(object N driver 0 level 3)\n(task 1 image N level 3 reads 3)\n",
];

/// Every number in every place of a text, those at the edges by name.
#[test]
fn every_number_in_every_place() {
    let mut pair = Pair::new("numbers");
    for text in PLACES {
        for number in 0..=1100 {
            let text = text.replace('N', &number.to_string());
            let verdict = pair.load(Q, text.as_bytes()).verdict;
            assert_eq!(verdict == 14, number > 999, "{text}");
        }
    }
    for (number, verdict) in
        [(63, 0), (64, 0), (126, 0), (127, 0), (128, 4), (255, 4), (256, 4), (999, 4)]
    {
        assert!(NUMBERS.contains(&number));
        let text = format!("(object {number} driver 0 level 3\n(object 1 driver 0 level 0))\n");
        assert_eq!(verdict_of(Q, &text), verdict, "{text}");
        let text = format!("(object 1 driver 0 level 3\n(object {number} driver 0 level 0))\n");
        assert_eq!(verdict_of(Q, &text), verdict, "{text}");
        let text =
            format!("(object 1 driver 0 level 3)\n(task {number} image 1 level 0 reads 0)\n");
        assert_eq!(verdict_of(Q, &text), verdict, "{text}");
    }
}

// ------------------------------------------------------------- what is lent

/// A load looks at the lengths of what it is lent, and at nothing else.
#[test]
fn memory_that_is_not_sound() {
    let mut rng = Rng::new(seed("memory_that_is_not_sound"));
    for number in 0..200 {
        let mut pair = Pair::new(format!("memory {number}"));
        if rng.once_in(2) {
            pair.set_state(worlds::sound_state(&mut rng, &Q));
        }
        for _ in 0..rng.below(2000) {
            pair.set_byte(rng.below(1024), rng.bits() as u8);
        }
        let text = texts::any(&mut rng, &Q);
        let lengths = if rng.once_in(4) { worlds::lengths(&mut rng) } else { Lengths::RIGHT };
        let failing = worlds::failing_order(&mut rng, Q);
        assert_eq!(
            pair.load_with(lengths, failing, &text).verdict,
            if lengths == Lengths::RIGHT { 3 } else { 2 }
        );
        pair.load_with(lengths, Q, &text);
        assert_eq!(pair.load(Q, SAMPLE.as_bytes()).verdict, 0);
    }
}

#[test]
fn every_length_lent() {
    let mut pair = Pair::started("lengths", Q);
    for bytes in [0, 1, 8, 512, 1016, 1023, 1024, 1025, 1032, 1085] {
        for words in [0, 1, 256, 767, 768, 769, 829] {
            let lengths = Lengths { bytes, words, ..Lengths::RIGHT };
            for text in ["", SAMPLE, "(", "(object 0 driver 0 level 0)\n"] {
                let verdict = pair.load_with(lengths, Q, text.as_bytes()).verdict;
                assert_eq!(verdict == 2, lengths != Lengths::RIGHT, "{lengths:?} {text:?}");
            }
        }
    }
}

/// Orders that are near to one that passes: the text is not looked at where they fail.
#[test]
fn orders_that_fail() {
    let mut rng = Rng::new(seed("orders_that_fail"));
    let mut pair = Pair::started("orders", Q);
    for _ in 0..3000 {
        let order = worlds::order(&mut rng);
        let other = worlds::other_order(&mut rng, order);
        let text = texts::any(&mut rng, &order);
        pair.load(other, &text);
        let failing = worlds::failing_order(&mut rng, order);
        assert_eq!(pair.load(failing, &text).verdict, 3);
    }
}

/// After a refused load calls go on under its order, on the state of a start.
#[test]
fn calls_after_a_refused_load() {
    let mut rng = Rng::new(seed("calls_after_a_refused_load"));
    let pool: Vec<u16> = (1..12).collect();
    let mut granted = 0;
    for number in 0..150 {
        let before = worlds::order(&mut rng);
        let mut pair = Pair::started(format!("after a refused load {number}"), before);
        pair.load(before, &texts::any(&mut rng, &before));
        let order = worlds::order(&mut rng);
        let text =
            rng.pick(&["(", "(object 0 driver 0 level 0)\n", "(task 1 image 1 level 0 reads 0)\n"]);
        assert!(pair.load(order, text.as_bytes()).verdict > 3);
        assert_eq!(u16::from(pair.byte(1)), order.top);
        for _ in 0..60 {
            let state = &pair.model.state;
            let mut author = Author { rng: &mut rng, state, order: &order, pool: &pool };
            let call = author.request();
            granted += u32::from(pair.perform(order, call).verdict == 0);
        }
    }
    assert!(granted > 2000, "{granted} granted");
}
