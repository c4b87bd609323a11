//! The paper's rules, on sets and enums instead of bytes and words.

mod events;
mod layout;
mod marks;
mod order;
mod state;
mod tallies;
mod told;

pub use layout::{Drawer, Form, LAYOUT_BYTES, LAYOUT_DEPTH, calls, read_layout, written};
pub use order::{at_or_below, passes};
pub use state::{BYTES, Mark, Number, Object, Pairs, RECORD, State, THINGS, Task, Thing, WORDS};
pub use tallies::{NOTHING_COUNTED, Tallies};

use events::Event;
use tupehiwo::ffi::{Answer, Order, Report, Request, code, told::NO_WORD};

/// The paper's verdicts, by their numbers.
#[derive(Clone, Copy, Debug, PartialEq, Eq)]
#[repr(u8)]
pub enum Verdict {
    Granted = 0,
    Slipped = 1,
    State = 2,
    Order = 3,
    Number = 4,
    Taken = 5,
    Driver = 6,
    Place = 7,
    Held = 8,
    Scale = 9,
    Path = 10,
    Rule = 11,
    Filled = 12,
    Still = 13,
    Form = 14,
    Deep = 15,
    Feeding = 16,
}

/// `Ok` if the call is performed (granted or slipped), `Err` if it is refused.
pub type Outcome = Result<Verdict, Verdict>;

/// How many bytes, words and tallies a call is lent.
#[derive(Clone, Copy, Debug, PartialEq, Eq)]
pub struct Lengths {
    pub bytes: usize,
    pub words: usize,
    pub tallies: usize,
}

impl Lengths {
    pub const RIGHT: Lengths = Lengths { bytes: BYTES, words: WORDS, tallies: THINGS };
}

/// A refused call, on the state that it met.
pub type Ended = Option<(State, Request)>;

#[derive(Clone, Debug, PartialEq, Eq)]
pub struct Model {
    pub state: State,
    pub tallies: Tallies,
}

impl Model {
    /// On a list of zeros.
    pub fn new(state: State) -> Model {
        Model { state, tallies: NOTHING_COUNTED }
    }

    /// Performs one call, counts it, and tells the driver.
    pub fn perform(&mut self, lengths: Lengths, order: &Order, request: Request) -> Answer {
        let unheard = self.perform_and_count(lengths, order, request);
        Answer { told: told::word(request.code, unheard.verdict), ..unheard }
    }

    fn perform_and_count(&mut self, lengths: Lengths, order: &Order, request: Request) -> Answer {
        if lengths.tallies != THINGS {
            return REFUSED_FOR_ITS_LIST;
        }
        let starting = request.code == code::START;
        let asker = self.state.asker(request);
        let fit = self.fit(lengths, order, starting);
        let answer = match fit {
            Ok(()) if request.code == code::SPREAD => {
                Answer { rounds: self.state.spread(), ..answer(Ok(Verdict::Granted)) }
            }
            Ok(()) => answer(self.dispatch(order, request)),
            Err(refusal) => answer(Err(refusal)),
        };
        self.count(starting, asker, answer.verdict);
        answer
    }

    /// Begins anew with the layout of a text, and counts that once. `Ended` is the
    /// call of the layout that was refused, if one was.
    pub fn load(&mut self, lengths: Lengths, order: &Order, text: &[u8]) -> (Answer, Ended) {
        if lengths.tallies != THINGS {
            return (REFUSED_FOR_ITS_LIST, None);
        }
        let fit = self.fit(lengths, order, true);
        let mut ended = None;
        let outcome = fit.and_then(|()| {
            self.state = State::started(order.top);
            self.lay_out(order, text, &mut ended)
        });
        if fit.is_ok() && outcome.is_err() {
            self.state = State::started(order.top);
        }
        let answer = answer(outcome);
        self.count(true, None, answer.verdict);
        (answer, ended)
    }

    /// The calls of a layout, one after the other, up to the first that is refused.
    fn lay_out(&mut self, order: &Order, text: &[u8], ended: &mut Ended) -> Outcome {
        for call in calls(&read_layout(text)?) {
            let outcome = self.dispatch(order, call);
            if outcome.is_err() {
                *ended = Some((self.state.clone(), call));
                return outcome;
            }
        }
        Ok(Verdict::Granted)
    }

    /// The marked numbers; it is lent no list and counts nowhere.
    pub fn report(&self, lengths: Lengths, order: &Order) -> Report {
        let refused = |verdict: Verdict| Report { words: [0; 2], ones: 0, verdict: verdict as u8 };
        match self.fit(lengths, order, false) {
            Ok(()) => self.state.report(),
            Err(refusal) => refused(refusal),
        }
    }

    /// Verdicts 2 and 3. A start does not look at the bytes.
    fn fit(&self, lengths: Lengths, order: &Order, starting: bool) -> Result<(), Verdict> {
        let lent = (lengths.bytes, lengths.words) == (BYTES, WORDS);
        require(lent && (starting || self.state.is_sound(order)), Verdict::State)?;
        require(passes(order), Verdict::Order)
    }

    fn dispatch(&mut self, order: &Order, request: Request) -> Outcome {
        let Request { code, a, b, c, d, e } = request;
        let state = &mut self.state;
        let mut event = Event { state, order };
        match code {
            code::START => event.start(),
            code::READ => event.read(a, b, c),
            code::WRITE => event.write(a, b, c),
            code::EXECUTE => event.execute(a, b, c, d, e),
            code::CREATE => event.create(a, b, c, d, e),
            code::CREATE_ROOT => event.create_root(a, b, c, d),
            code::MOVE => event.move_object(a, b, c, d, e),
            code::DELETE => event.delete(a, b, c, d),
            code::CALL => event.call(a, b),
            code::INVOKE => event.invoke(a, b),
            code::PASS => event.pass(a, b, c),
            code::POST => event.post(a, b, c),
            code::FIND => event.find(a, b, c),
            code::MARK => event.state.mark_from_outside(a),
            code::STEP => event.state.step(a),
            _ => Err(Verdict::Number),
        }
    }
}

/// "A list of another length is refused with 2 and stays untouched", as all else does.
const REFUSED_FOR_ITS_LIST: Answer =
    Answer { verdict: Verdict::State as u8, rounds: 0, told: NO_WORD };

/// The answer of a call that is no granted spread, and of which nothing is told: no rounds.
fn answer(outcome: Outcome) -> Answer {
    let (Ok(verdict) | Err(verdict)) = outcome;
    Answer { verdict: verdict as u8, rounds: 0, told: NO_WORD }
}

fn require(holds: bool, otherwise: Verdict) -> Result<(), Verdict> {
    if holds { Ok(()) } else { Err(otherwise) }
}
