//! What is lent may be anything: every byte damaged, every length, number and code
//! at its edges.

use tupehiwo::ffi::{self, Order, Report, Request, code};
use tupehiwo_tests::author::{Author, EDGES};
use tupehiwo_tests::causes::how_many;
use tupehiwo_tests::compare::{Pair, next_marked};
use tupehiwo_tests::model::{Lengths, State, Thing};
use tupehiwo_tests::request;
use tupehiwo_tests::rng::{Rng, seed};
use tupehiwo_tests::worlds::{self, FAILING, Q};

/// Calls that build a small world under Q, all granted: roots 10, 11 and 127
/// of the core, tasks 1 and 2, object 12 of task 1 in 10, object 13 in 12.
fn small_world() -> Vec<Request> {
    vec![
        request(code::START, &[]),
        request(code::CREATE_ROOT, &[0, 0, 10, 3]),
        request(code::CREATE_ROOT, &[0, 0, 11, 3]),
        request(code::CREATE_ROOT, &[0, 0, 127, 0]),
        request(code::EXECUTE, &[0, 10, 1, 3, 1]),
        request(code::EXECUTE, &[0, 11, 2, 1, 0]),
        request(code::WRITE, &[0, 0, 10]),
        request(code::WRITE, &[1, 0, 10]),
        request(code::WRITE, &[0, 0, 11]),
        request(code::WRITE, &[1, 0, 11]),
        request(code::CREATE, &[0, 1, 12, 10, 2]),
        request(code::WRITE, &[0, 1, 12]),
        request(code::WRITE, &[1, 1, 12]),
        request(code::CREATE, &[1, 1, 13, 12, 0]),
        request(code::READ, &[2, 0, 11]),
        request(code::INVOKE, &[1, 2]),
        request(code::INVOKE, &[2, 2]),
        request(code::WRITE, &[2, 0, 127]),
        request(code::CREATE, &[0, 0, 14, 10, 1]),
    ]
}

/// One more call of each code, each granted in the small world on its own.
fn one_of_each() -> Vec<Request> {
    vec![
        request(code::START, &[]),
        request(code::READ, &[2, 0, 10]),
        request(code::WRITE, &[1, 0, 127]),
        request(code::EXECUTE, &[1, 11, 126, 2, 0]),
        request(code::CREATE, &[0, 1, 126, 11, 2]),
        request(code::CREATE_ROOT, &[1, 2, 126, 0]),
        request(code::MOVE, &[0, 1, 12, 10, 11]),
        request(code::DELETE, &[1, 0, 14, 10]),
        request(code::CALL, &[2, 1]),
        request(code::INVOKE, &[1, 2]),
        request(code::PASS, &[2, 11, 127]),
        request(code::POST, &[0, 11, 2]),
        request(code::FIND, &[1, 2, 127]),
        request(code::MARK, &[1]),
        request(code::STEP, &[2]),
        request(code::SPREAD, &[]),
    ]
}

/// The small world, with task 1 marked from outside where a step must find it.
fn small_state(marked: bool) -> State {
    let mut pair = Pair::new("small world");
    for request in small_world() {
        assert_eq!(pair.perform(Q, request).verdict, 0, "{request:?}");
    }
    if marked {
        assert_eq!(pair.perform(Q, request(code::MARK, &[1])).verdict, 0);
    }
    pair.model.state
}

/// A state in which this request is granted.
fn state_for(request: Request) -> State {
    small_state(request.code == code::STEP)
}

#[test]
fn every_byte_damaged() {
    let sound = small_state(true);
    let mut pair = Pair::new("every byte damaged");
    for place in 0..1024 {
        pair.set_state(sound.clone());
        for value in 0..=255 {
            pair.set_byte(place, value);
            pair.perform(Q, request(16, &[]));
        }
    }
}

/// Orders that leave some bytes sound, and what follows then: 4 for the unknown
/// code if they pass, else 3; `None` if they leave none sound.
fn other_orders() -> Vec<(Order, Option<u8>)> {
    let chain: [u16; 16] = std::array::from_fn(|level| u16::MAX << level);
    let sixteen = Order::new(15, chain);
    vec![
        (Order::new(0, [1]), Some(4)),
        (sixteen, Some(4)),
        (Order { count: 200, ..Q }, Some(3)),
        (Order { count: 200, top: 199, ..Q }, Some(3)),
        (Order { count: 65535, top: 255, ..sixteen }, Some(3)),
        (Order { count: 17, top: 16, ..sixteen }, Some(3)),
        (Order { rows: [0; 16], ..Q }, Some(3)),
        (Order { count: 0, top: 0, ..Q }, None),
        (Order { top: 4, ..Q }, None),
        (Order { top: 65535, ..Q }, None),
        (Order { count: 65535, top: 256, ..Q }, None),
    ]
}

/// A level counts by the count as lent, whatever becomes of the order.
#[test]
fn bytes_damaged_under_other_orders() {
    let mut rng = Rng::new(seed("bytes_damaged_under_other_orders"));
    for (order, then) in other_orders() {
        // The core's level is a byte, and cannot be a top that is none.
        let state = worlds::dense_state(&mut rng, &Order { top: order.top & 255, ..order });
        let mut pair = Pair::new(format!("damaged bytes under {order:?}"));
        let mut sound = 0;
        for place in 0..1024 {
            pair.set_state(state.clone());
            for value in [0, 1, 2, 3, 4, 15, 16, 17, 127, 128, 199, 200, 254, 255] {
                pair.set_byte(place, value);
                let verdict = pair.perform(order, request(16, &[])).verdict;
                assert!(verdict == 2 || Some(verdict) == then, "{verdict} under {order:?}");
                sound += u32::from(verdict != 2);
            }
        }
        // Of each record at least the byte that it has already.
        assert_eq!(sound > 100, then.is_some(), "{sound} sound under {order:?}");
    }
}

#[test]
fn every_call_on_damaged_bytes() {
    let mut rng = Rng::new(seed("every_call_on_damaged_bytes"));
    for call in one_of_each() {
        let sound = state_for(call);
        let mut pair = Pair::new(format!("damaged bytes, {call:?}"));
        for _ in 0..2000 {
            pair.set_state(sound.clone());
            for _ in 0..1 + rng.below(3) {
                let value = rng.pick(&[0, 1, 2, 3, 4, 10, 15, 16, 127, 128, 254, 255]);
                // Mostly where the small world has its records.
                let number = rng.pick(&[0, 1, 2, 3, 10, 11, 12, 13, 14, 126, 127]);
                pair.set_byte(8 * number + rng.below(8), value);
            }
            pair.perform(Q, call);
        }
    }
}

#[test]
fn every_length() {
    let bytes = [0, 1, 8, 512, 1016, 1022, 1023, 1024, 1025, 1026, 1032, 1085];
    let words = [0, 1, 2, 256, 512, 766, 767, 768, 769, 770, 829];
    for call in one_of_each().into_iter().chain([request(16, &[])]) {
        let state = state_for(call);
        let mut pair = Pair::new(format!("lengths, {call:?}"));
        for bytes in bytes {
            for words in words {
                let lengths = Lengths { bytes, words, ..Lengths::RIGHT };
                pair.set_state(state.clone());
                let verdict = pair.perform_with(lengths, Q, call).verdict;
                assert_eq!(verdict == 2, lengths != Lengths::RIGHT, "{lengths:?} {call:?}");
            }
        }
    }
}

#[test]
fn every_number_in_every_place() {
    let near = 0..=520;
    let far = (1000..65000).step_by(997).chain(65270..=65535);
    let numbers: Vec<u16> = near.chain(far).collect();
    assert!(EDGES.iter().all(|edge| numbers.contains(edge)));
    for call in one_of_each() {
        let state = state_for(call);
        let mut pair = Pair::new("numbers");
        for place in 0..5 {
            for &number in &numbers {
                let Request { code, a, b, c, d, e } = call;
                let mut arguments = [a, b, c, d, e];
                arguments[place] = number;
                pair.set_state(state.clone());
                pair.perform(Q, request(code, &arguments));
            }
        }
    }
}

/// Number 127 free, with bits in its row and column, in every place of every call:
/// an unfit number, or a new one that keeps those bits.
#[test]
fn number_127_free_in_every_place() {
    let mut rng = Rng::new(seed("number_127_free_in_every_place"));
    for call in one_of_each() {
        let mut pair = Pair::new("127 free");
        let named = how_many(call.code);
        let mut granted = 0;
        for choice in 0..1u32 << named {
            let mut arguments = [call.a, call.b, call.c, call.d, call.e];
            let places = (0..named).filter(|place| choice >> place & 1 == 1);
            places.for_each(|place| arguments[place] = 127);
            let mut state = state_for(call);
            state.put(127, Thing::Free);
            for pairs in [&mut state.flows, &mut state.reads, &mut state.writes] {
                let bits = (0..128).flat_map(|n| [(n, 127), (127, n)]);
                pairs.extend(bits.filter(|_| rng.once_in(2)));
            }
            pair.set_state(state);
            let verdict = pair.perform(Q, request(call.code, &arguments)).verdict;
            granted += u32::from(verdict == 0);
        }
        // All but those that need 127 itself: it is the object or the end that they name.
        let needed = [call.a, call.b, call.c].contains(&127);
        assert_eq!(granted > 0, !needed, "{granted} granted of {call:?}");
    }
}

#[test]
fn edge_numbers_in_all_places_at_once() {
    let places = EDGES.len() as u16;
    for code in 1..16 {
        let state = small_state(code == code::STEP);
        let mut pair = Pair::new("edges");
        for choice in 0..places.pow(5) {
            let edge = |place| EDGES[usize::from(choice / places.pow(place) % places)];
            let arguments: Vec<u16> = (0..5).map(edge).collect();
            pair.set_state(state.clone());
            pair.perform(Q, request(code, &arguments));
        }
    }
}

#[test]
fn every_unknown_code() {
    let mut pair = Pair::started("codes", Q);
    for code in 16..=u16::MAX {
        assert_eq!(pair.perform(Q, request(code, &[0, 0, 10, 3])).verdict, 4, "code {code}");
    }
    for code in [16, 256, u16::MAX] {
        assert_eq!(pair.perform(FAILING, request(code, &[])).verdict, 3, "code {code}");
        let shrunk = Order { count: 3, ..Q };
        assert_eq!(pair.perform(shrunk, request(code, &[])).verdict, 2, "code {code}");
    }
}

#[test]
fn every_small_order() {
    let mut pair = Pair::new("small orders");
    let mut passing = 0;
    for count in 0..=4u16 {
        // Every relation of this many levels.
        for relation in 0..1u32 << (count * count) {
            let mut rows = [0; 16];
            for level in 0..count {
                rows[usize::from(level)] =
                    (relation >> (level * count)) as u16 & ((1 << count) - 1);
            }
            // Every top for three levels; for four, that would be long.
            let tops = if count == 4 { 3..=4 } else { 0..=count };
            for top in tops {
                let answer = pair.perform(Order { rows, count, top }, request(code::START, &[]));
                passing += u32::from(answer.verdict == 0);
            }
        }
    }
    // A top over any partial order of the rest: of 0, 1, 2 levels for each top, and of 3 for one.
    assert_eq!(passing, 1 + 2 + 3 * 3 + 19);
}

#[test]
fn orders_wrong_in_one_place() {
    let mut rng = Rng::new(seed("orders_wrong_in_one_place"));
    let chain: [u16; 16] = std::array::from_fn(|level| u16::MAX << level);
    for order in [Q, Order::new(15, chain), Order::new(0, [1]), worlds::order(&mut rng)] {
        let mut pair = Pair::started("one place", order);
        for bit in 0..256 {
            let mut wrong = order;
            wrong.rows[bit / 16] ^= 1 << (bit % 16);
            pair.perform(wrong, request(code::SPREAD, &[]));
            pair.perform(wrong, request(code::START, &[]));
            pair.perform(order, request(code::START, &[]));
        }
        for value in (0..300).chain(65500..=65535) {
            for wrong in [Order { count: value, ..order }, Order { top: value, ..order }] {
                pair.perform(wrong, request(code::SPREAD, &[]));
                pair.perform(wrong, request(code::START, &[]));
                pair.perform(order, request(code::START, &[]));
            }
        }
    }
}

#[test]
fn random_orders() {
    let mut rng = Rng::new(seed("random_orders"));
    let mut pair = Pair::new("random orders");
    for _ in 0..20_000 {
        let order = worlds::order(&mut rng);
        let other = worlds::other_order(&mut rng, order);
        assert_eq!(pair.perform(order, request(code::START, &[])).verdict, 0);
        pair.perform(other, request(code::SPREAD, &[]));
        pair.perform(other, request(code::START, &[]));
        let failing = worlds::failing_order(&mut rng, order);
        assert_eq!(pair.perform(failing, request(code::START, &[])).verdict, 3);
    }
}

#[test]
fn next_marked_of_any_words() {
    let mut rng = Rng::new(seed("next_marked_of_any_words"));
    for _ in 0..2000 {
        let sparse = 1 + rng.below(40);
        let mut words = [0; 2];
        for n in 0..128 {
            words[n / 64] |= u64::from(rng.once_in(sparse)) << (n % 64);
        }
        let ones = words[0].count_ones() + words[1].count_ones();
        let report = Report { words, ones, verdict: 0 };
        for from in (0..140).chain(EDGES) {
            let next = ffi::tupehiwo_next_marked(report, from);
            assert_eq!(next, next_marked(&report, from), "{report:?} from {from}");
        }
    }
}

#[test]
fn one_of_each_is_granted() {
    for call in one_of_each() {
        let mut pair = Pair::new("one of each");
        pair.set_state(state_for(call));
        assert_eq!(pair.perform(Q, call).verdict, 0, "{call:?}");
    }
}

#[test]
fn words_of_any_value() {
    let mut rng = Rng::new(seed("words_of_any_value"));
    let pool: Vec<u16> = (0..128).collect();
    let bytes = bytes_of(&small_state(false));
    for number in 0..60 {
        let words: Vec<u64> = match number {
            0 => vec![0; 768],
            1 => vec![u64::MAX; 768],
            _ => (0..768).map(|_| rng.bits()).collect(),
        };
        let mut pair = Pair::new(format!("words {number}"));
        pair.set_state(State::read(&bytes, &words));
        for code in 1..16 {
            let state = &pair.model.state;
            let mut author = Author { rng: &mut rng, state, order: &Q, pool: &pool };
            let call = author.request_of(code);
            pair.perform(Q, call);
        }
    }
}

fn bytes_of(state: &State) -> Vec<u8> {
    let (mut bytes, mut words) = (vec![0; 1024], vec![0; 768]);
    state.write(&mut bytes, &mut words);
    bytes
}
