//! The library and the model side by side, and other engines beside them.

use std::fmt;

use crate::causes::{Loaded, Made};
use crate::model::{BYTES, Lengths, Model, Number, RECORD, State, THINGS, Tallies, Thing, WORDS};
use crate::prefix;
use crate::settings::Foreseen;
use crate::table::Table;
use tupehiwo::ffi::{self, Answer, Order, Report, Request, Tally, code};

/// Memory around what is lent, which must never change. Odd, so that the bytes
/// lent are not aligned.
const MARGIN: usize = 61;
const MARGIN_BYTE: u8 = 0xA5;
const MARGIN_WORD: u64 = 0xA5A5_5A5A_A5A5_5A5A;
const MARGIN_TALLY: Tally = Tally { granted: 0xA5A5, slipped: 0x5A5A, refused: 0xA55A };
/// A list twice as long as it must be can be lent.
const TALLIES: usize = 2 * THINGS;

/// Bytes, words and tallies.
type Lent<'a> = (&'a mut [u8], &'a mut [u64], &'a mut [Tally]);

/// What calls are lent, and the margins around it.
#[derive(Clone, PartialEq, Eq)]
pub struct Memory {
    bytes: Vec<u8>,
    words: Vec<u64>,
    tallies: Vec<Tally>,
}

impl Memory {
    fn new() -> Memory {
        Memory {
            bytes: vec![MARGIN_BYTE; MARGIN + BYTES + MARGIN],
            words: vec![MARGIN_WORD; MARGIN + WORDS + MARGIN],
            tallies: vec![MARGIN_TALLY; MARGIN + TALLIES + MARGIN],
        }
    }

    fn set_state(&mut self, state: &State) {
        state.write(&mut self.bytes[MARGIN..][..BYTES], &mut self.words[MARGIN..][..WORDS]);
    }

    fn set_tallies(&mut self, tallies: &Tallies) {
        self.tallies[MARGIN..][..THINGS].copy_from_slice(tallies);
    }

    /// As much as `lengths` say.
    fn lend(&mut self, lengths: Lengths) -> Lent<'_> {
        (
            &mut self.bytes[MARGIN..][..lengths.bytes],
            &mut self.words[MARGIN..][..lengths.words],
            &mut self.tallies[MARGIN..][..lengths.tallies],
        )
    }

    /// Where this memory is not the model's.
    fn difference(&self, model: &Memory) -> Option<String> {
        first_difference(&self.tallies, &model.tallies, "tally")
            .or_else(|| first_difference(&self.bytes, &model.bytes, "byte"))
            .or_else(|| first_difference(&self.words, &model.words, "word"))
    }
}

/// What does calls and loads on memory that it is lent.
#[derive(Clone, Copy)]
pub struct Engine {
    pub name: &'static str,
    pub perform: fn(&mut [u8], &mut [u64], &mut [Tally], Order, Request) -> Answer,
    pub load: fn(&mut [u8], &mut [u64], &mut [Tally], Order, &[u8]) -> Answer,
}

const LIBRARY: Engine = Engine { name: "the library", perform: ffi::perform, load: ffi::load };

/// An engine, and the memory that it works on.
struct Side {
    engine: Engine,
    memory: Memory,
}

/// Both on the same memory: each call is made of both, and everything that it
/// answers and leaves must be equal. Other engines may be beside the library: each of
/// them has memory of its own, and is held equal to the model too.
pub struct Pair {
    pub model: Model,
    pub table: Table,
    /// Said when the two differ: how to find the place again.
    label: String,
    calls: usize,
    /// The library, then the others.
    sides: Vec<Side>,
    /// What the model says that the memory is.
    expected: Memory,
}

impl Pair {
    /// Memory of zeros, and a list in which no two records are alike.
    pub fn new(label: impl Into<String>) -> Pair {
        Pair::beside(&[], label)
    }

    /// The same with other engines beside the library.
    pub fn beside(others: &[Engine], label: impl Into<String>) -> Pair {
        let state = State::read(&[0; BYTES], &[0; WORDS]);
        let side = |&engine: &Engine| Side { engine, memory: Memory::new() };
        let mut pair = Pair {
            model: Model::new(state.clone()),
            table: Table::default(),
            label: label.into(),
            calls: 0,
            sides: [LIBRARY].iter().chain(others).map(side).collect(),
            expected: Memory::new(),
        };
        pair.set_state(state);
        pair.set_tallies(std::array::from_fn(|n| {
            let n = n as u32;
            Tally { granted: 1000 + n, slipped: 2000 + n, refused: 3000 + n }
        }));
        pair
    }

    /// Memory of a granted start.
    pub fn started(label: impl Into<String>, order: Order) -> Pair {
        let mut pair = Pair::new(label);
        let answer = pair.perform(order, Request::default());
        assert_eq!(answer.verdict, 0, "the order is meant to pass: {order:?}");
        pair
    }

    /// Puts other memory in the place of what the calls left.
    pub fn set_state(&mut self, state: State) {
        self.sides.iter_mut().for_each(|side| side.memory.set_state(&state));
        self.model.state = state;
    }

    /// Puts another byte in the place of what the calls left, sound or not.
    pub fn set_byte(&mut self, place: usize, value: u8) {
        self.sides.iter_mut().for_each(|side| side.memory.bytes[MARGIN + place] = value);
        let record = place - place % RECORD;
        let bytes = &self.memory().bytes[MARGIN + record..][..RECORD];
        self.model.state.things[place / RECORD] = Thing::read(bytes);
    }

    /// Puts another list in the place of what the calls left.
    pub fn set_tallies(&mut self, tallies: Tallies) {
        self.sides.iter_mut().for_each(|side| side.memory.set_tallies(&tallies));
        self.model.tallies = tallies;
    }

    /// All that the library left, with what is around it.
    pub fn memory(&self) -> &Memory {
        &self.sides[0].memory
    }

    /// The library's list.
    pub fn tallies(&self) -> &[Tally] {
        &self.memory().tallies[MARGIN..][..THINGS]
    }

    /// The library's byte of a record.
    pub fn byte(&self, place: usize) -> u8 {
        self.memory().bytes[MARGIN + place]
    }

    /// Whether the library has recorded this flow.
    pub fn has_flow(&self, from: Number, to: Number) -> bool {
        let word = 2 * usize::from(from) + usize::from(to) / 64;
        self.memory().words[MARGIN + word] >> (to % 64) & 1 == 1
    }

    /// Whether the library left the same bytes and words to both.
    pub fn has_memory_of(&self, other: &Pair) -> bool {
        let (own, others) = (self.memory(), other.memory());
        own.bytes == others.bytes && own.words == others.words
    }

    /// How many flows the library has recorded.
    pub fn flows(&self) -> u32 {
        self.memory().words[MARGIN..][..256].iter().map(|word| word.count_ones()).sum()
    }

    /// One call on memory of the right lengths, and a report after it.
    pub fn perform(&mut self, order: Order, request: Request) -> Answer {
        self.perform_with(Lengths::RIGHT, order, request)
    }

    /// One call that is lent as much as `lengths` say, and a report after it.
    pub fn perform_with(&mut self, lengths: Lengths, order: Order, request: Request) -> Answer {
        self.calls += 1;
        let deleting = request.code == code::DELETE;
        let met = deleting.then(|| self.model.state.clone());
        let foreseen = Foreseen::of(&self.model.state, &order, request);
        let answer = self.model.perform(lengths, &order, request);
        self.compare_answers(lengths, &order, &request, answer, |engine, lent| {
            (engine.perform)(lent.0, lent.1, lent.2, order, request)
        });
        let state = met.as_ref().unwrap_or(&self.model.state);
        let made = Made { state, lengths, order: &order, request };
        self.table.count_call(request.code, answer.verdict, made.cause(answer.verdict));
        self.compare_memory(&order, &request);
        let setting = foreseen.and_then(|call| call.judged(answer.verdict, &self.model.state));
        setting.into_iter().for_each(|met| self.table.settings.count(met));
        self.compare_report(lengths, order, &request);
        answer
    }

    /// A load on memory of the right lengths, and a report after it.
    pub fn load(&mut self, order: Order, text: &[u8]) -> Answer {
        self.load_with(Lengths::RIGHT, order, text)
    }

    /// A load that is lent as much as `lengths` say, and a report after it. What the
    /// library says of the text alone is compared too.
    pub fn load_with(&mut self, lengths: Lengths, order: Order, text: &[u8]) -> Answer {
        self.calls += 1;
        let asked = Text(text);
        let (answer, ended) = self.model.load(lengths, &order, text);
        self.compare_answers(lengths, &order, &asked, answer, |engine, lent| {
            (engine.load)(lent.0, lent.1, lent.2, order, text)
        });
        let loaded = Loaded { lengths, order: &order, text, ended };
        self.table.count_load(answer.verdict, loaded.cause(answer.verdict));
        self.compare_memory(&order, &asked);
        self.compare_report(lengths, order, &asked);
        self.compare_text(&order, text);
        answer
    }

    /// Asks each engine, on its own memory, for what the model answered.
    fn compare_answers(
        &mut self,
        lengths: Lengths,
        order: &Order,
        asked: &dyn fmt::Debug,
        expected: Answer,
        ask: impl Fn(&Engine, Lent) -> Answer,
    ) {
        for place in 0..self.sides.len() {
            let Side { engine, memory } = &mut self.sides[place];
            let answer = ask(engine, memory.lend(lengths));
            if answer != expected {
                let fault = format!("{} answers {answer:?}, model {expected:?}", engine.name);
                self.differ(order, asked, &fault);
            }
        }
    }

    /// What the library says of a text alone, and where.
    fn compare_text(&self, order: &Order, text: &[u8]) {
        let checked = ffi::layout(text);
        let found = prefix::find(text);
        let expected = (found.verdict as u8, found.offset);
        if (checked.verdict, checked.offset as usize) != expected {
            let fault = format!("the library says {checked:?} of the text, model {expected:?}");
            self.differ(order, &Text(text), &fault);
        }
    }

    fn compare_memory(&mut self, order: &Order, request: &dyn fmt::Debug) {
        self.expected.set_state(&self.model.state);
        self.expected.set_tallies(&self.model.tallies);
        for Side { engine, memory } in &self.sides {
            if let Some(fault) = memory.difference(&self.expected) {
                self.differ(order, request, &format!("{} {fault}", engine.name));
            }
        }
    }

    fn compare_report(&mut self, lengths: Lengths, order: Order, request: &dyn fmt::Debug) {
        let report = self.report_with(lengths, order);
        let expected = self.model.report(lengths, &order);
        if report != expected {
            let fault = format!("the library reports {report:?}, model {expected:?}");
            self.differ(&order, request, &fault);
        }
        // A different beginning each time, past the end too.
        let from = (self.calls % 131) as u16;
        let next = ffi::tupehiwo_next_marked(report, from);
        let expected = next_marked(&expected, from);
        if next != expected {
            let fault =
                format!("the library's next marked from {from} is {next}, model {expected}");
            self.differ(&order, request, &fault);
        }
        self.table.count_report(report.verdict);
    }

    /// The library's report alone.
    pub fn report_with(&self, lengths: Lengths, order: Order) -> Report {
        let bytes = &self.memory().bytes[MARGIN..][..lengths.bytes];
        let words = &self.memory().words[MARGIN..][..lengths.words];
        ffi::report(bytes, words, order)
    }

    fn differ(&self, order: &Order, request: &dyn fmt::Debug, fault: &str) -> ! {
        panic!("{}, call {}: {fault}\nafter {request:?}\nunder {order:?}", self.label, self.calls);
    }
}

/// A text that was loaded, as a failure shows it.
struct Text<'a>(&'a [u8]);

impl fmt::Debug for Text<'_> {
    fn fmt(&self, f: &mut fmt::Formatter<'_>) -> fmt::Result {
        let shown = &self.0[..self.0.len().min(2000)];
        write!(f, "the load of {} bytes: {:?}", self.0.len(), String::from_utf8_lossy(shown))
    }
}

/// The lowest number in the report that is `from` or more; 128 if there is none.
pub fn next_marked(report: &Report, from: Number) -> Number {
    let marked = |&n: &Number| report.words[usize::from(n) / 64] & (1 << (n % 64)) != 0;
    (from..128).find(marked).unwrap_or(128)
}

fn first_difference<T: PartialEq + fmt::Debug>(
    ours: &[T],
    model: &[T],
    unit: &str,
) -> Option<String> {
    if ours == model {
        return None;
    }
    let place = ours.iter().zip(model).position(|(a, b)| a != b)?;
    let (a, b) = (&ours[place], &model[place]);
    Some(match place.checked_sub(MARGIN) {
        Some(place) => format!("leaves {unit} {place} as {a:?}, model {b:?}"),
        None => format!("writes before the first {unit} lent"),
    })
}
