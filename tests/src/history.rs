//! What a list of calls has joined, kept by the calls and not by the flows that stand:
//! "each flow having been recorded while both its ends lived".

use std::collections::{BTreeMap, BTreeSet};

use crate::model::{Number, Pairs, State, Thing, at_or_below};
use tupehiwo::ffi::{Order, Request, code};

/// A number from the call that made it to the one that deleted it, with how many such
/// lives it had before.
pub type Life = (Number, u32);

/// Where each life leads.
type Joins = BTreeMap<Life, BTreeSet<Life>>;

/// All that was joined since the state of a start was made. Nothing leaves it.
#[derive(Clone, Debug, Default)]
pub struct History {
    /// How many lives of a number have ended.
    ended: BTreeMap<Number, u32>,
    /// By a flow that an event recorded, or as a driver to its object.
    joins: Joins,
    /// By a flow that stood after a deletion, which may be one that it bridged.
    bridges: Joins,
    /// The tasks that a granted mark named.
    named: BTreeSet<Life>,
}

impl History {
    /// Begins anew with what a start or a load left.
    pub fn begun(state: &State) -> History {
        let mut history = History::default();
        history.join_all(&state.flows);
        state.objects().for_each(|(n, object)| history.join(object.driver, n));
        history
    }

    /// Goes on with a call that was done: the flows that its event records, and what it left.
    pub fn follow(&mut self, request: Request, recorded: &Pairs, state: &State) {
        let Request { code, a, b, c, .. } = request;
        match code {
            code::START => *self = History::begun(state),
            code::MARK => drop(self.named.insert(self.life(a))),
            code::CREATE | code::CREATE_ROOT => self.join(b, c),
            code::DELETE => {
                *self.ended.entry(c).or_default() += 1;
                self.keep_bridges(&state.flows);
            }
            _ => {}
        }
        self.join_all(recorded);
    }

    /// The numbers of the tasks that a granted mark named.
    pub fn named(&self) -> impl Iterator<Item = Number> {
        self.named.iter().map(|&(n, _)| n)
    }

    /// Whether anything has ended.
    pub fn has_ended(&self) -> bool {
        !self.ended.is_empty()
    }

    /// Whether a number had a life before that of now.
    pub fn is_used_again(&self, n: Number) -> bool {
        self.ended.contains_key(&n)
    }

    /// Whether no event recorded this flow: it stands by a bridge alone.
    pub fn is_bridge(&self, from: Number, to: Number) -> bool {
        let joined = self.joins.get(&self.life(from));
        !joined.is_some_and(|lives| lives.contains(&self.life(to)))
    }

    /// Those of these numbers whose lives a chain leads to from a named one.
    pub fn reached(&self, numbers: &BTreeSet<Number>, chains: Chains) -> BTreeSet<Number> {
        let mut reached = BTreeSet::new();
        let mut open: Vec<Life> = self.named.iter().copied().collect();
        while let Some(life) = open.pop() {
            if !reached.insert(life) {
                continue;
            }
            let bridges = (chains == Chains::WithBridges).then_some(&self.bridges);
            let next = [Some(&self.joins), bridges].into_iter().flatten();
            let next = next.filter_map(|joins| joins.get(&life)).flatten().copied();
            open.extend(
                next.filter(|&(n, lives)| {
                    chains != Chains::OfTheLiving || (n, lives) == self.life(n)
                }),
            );
        }
        numbers.iter().copied().filter(|&n| reached.contains(&self.life(n))).collect()
    }

    fn life(&self, n: Number) -> Life {
        (n, self.ended.get(&n).copied().unwrap_or(0))
    }

    fn join(&mut self, from: Number, to: Number) {
        let (from, to) = (self.life(from), self.life(to));
        self.joins.entry(from).or_default().insert(to);
    }

    fn join_all(&mut self, flows: &Pairs) {
        flows.iter().for_each(|&(from, to)| self.join(from, to));
    }

    fn keep_bridges(&mut self, flows: &Pairs) {
        for &(from, to) in flows {
            let (from, to) = (self.life(from), self.life(to));
            self.bridges.entry(from).or_default().insert(to);
        }
    }
}

/// Which joins a chain may take.
#[derive(Clone, Copy, Debug, PartialEq, Eq)]
pub enum Chains {
    /// Every flow that was recorded, by a bridge too, and every driver's.
    WithBridges,
    /// The same, but what only a bridge recorded.
    WithoutBridges,
    /// Of these again only such as join lives that have not ended.
    OfTheLiving,
}

/// The flows that a call's event records if it is done, but for those of a bridge.
pub fn recorded(state: &State, order: &Order, request: Request) -> Pairs {
    let Request { code, a, b, c, .. } = request;
    let marked = |n| state.is_marked(n);
    let level = |n: Number| state.things.get(usize::from(n)).and_then(Thing::level);
    let below = |x, y| level(x).zip(level(y)).is_some_and(|(x, y)| at_or_below(order, x, y));
    let heard = marked(a) || below(a, b);
    let flows = match code {
        code::READ if marked(b) => vec![(heard, c, a), (heard, b, a)],
        code::READ => vec![(marked(a) || (below(a, b) && below(a, c)), c, a)],
        code::WRITE => vec![(true, a, c), (marked(b), a, b)],
        code::EXECUTE => vec![(marked(b), b, c)],
        code::CREATE | code::CREATE_ROOT | code::MOVE => {
            vec![(marked(b), a, c), (marked(b), a, b)]
        }
        code::DELETE => vec![(marked(b), a, b)],
        code::CALL => vec![(heard, b, a), (heard && marked(b), a, b)],
        code::INVOKE => vec![(true, a, b), (marked(a), b, a)],
        code::PASS => vec![(true, b, c)],
        code::POST | code::FIND => vec![(true, a, c)],
        _ => vec![],
    };
    flows.into_iter().filter(|flow| flow.0).map(|(_, from, to)| (from, to)).collect()
}
