//! A list of calls that begins with a granted start or a load, and its history.

use std::collections::BTreeSet;

use crate::author::Author;
use crate::compare::{Engine, Pair};
use crate::history::{self, Chains, History};
use crate::model::{Lengths, Model, Number, Pairs, THINGS, at_or_below};
use crate::rng::Rng;
use crate::{texts, worlds};
use tupehiwo::ffi::{Order, Request, code};

/// Loads, as starts, are rare, so that worlds grow.
const ONE_LOAD_OF: usize = 300;
/// Now and then another list is lent: no call looks at what it holds.
const ONE_LIST_OF: usize = 30;

pub struct List {
    pub rng: Rng,
    pub pair: Pair,
    /// That of the last granted start, or load past state and order.
    pub order: Order,
    /// What was marked from outside and joined since then.
    pub history: History,
    /// The numbers that new things get: few for dense worlds, or all of them.
    pool: Vec<Number>,
    seed: u64,
}

impl List {
    /// Begun under one of such orders, on memory of any kind, with as many numbers for new
    /// things as one of `sizes`.
    pub fn begin(seed: u64, orders: fn(&mut Rng) -> Order, sizes: &[usize]) -> List {
        List::beside(&[], seed, orders, sizes)
    }

    /// The same with other engines beside the library.
    pub fn beside(
        others: &[Engine],
        seed: u64,
        orders: fn(&mut Rng) -> Order,
        sizes: &[usize],
    ) -> List {
        let mut rng = Rng::new(seed);
        let order = orders(&mut rng);
        let mut pair = Pair::beside(others, format!("list of TUPEHIWO_SEED={seed}"));
        pair.set_tallies(worlds::tallies(&mut rng));
        if rng.once_in(2) {
            pair.set_state(worlds::sound_state(&mut rng, &order));
            pair.set_byte(rng.below(1024), rng.bits() as u8);
        }
        let mut pool: Vec<Number> = (1..128).collect();
        rng.shuffle(&mut pool);
        pool.truncate(rng.pick(sizes));
        let mut list = List { rng, pair, order, history: History::default(), pool, seed };
        if list.rng.once_in(3) {
            let text = texts::any(&mut list.rng, &order);
            list.load(Lengths::RIGHT, order, &text);
        } else {
            list.perform(Lengths::RIGHT, order, Request::default());
        }
        list
    }

    /// Who thinks of the next call.
    pub fn author(&mut self) -> Author<'_> {
        let state = &self.pair.model.state;
        Author { rng: &mut self.rng, state, order: &self.order, pool: &self.pool }
    }

    /// Any call, or a load.
    pub fn any_call(&mut self) {
        if self.rng.once_in(ONE_LIST_OF) {
            self.pair.set_tallies(worlds::tallies(&mut self.rng));
        }
        let lengths = worlds::lengths(&mut self.rng);
        if self.rng.once_in(ONE_LOAD_OF) {
            let order = self.order_of_a_new_state();
            let text = texts::any(&mut self.rng, &self.order);
            self.load(lengths, order, &text);
        } else {
            let request = self.author().request();
            let order = self.order_for(request);
            self.perform(lengths, order, request);
        }
    }

    /// One call, and its verdict. After a granted spread the trail must be exact.
    pub fn perform(&mut self, lengths: Lengths, order: Order, request: Request) -> u8 {
        let recorded = history::recorded(&self.pair.model.state, &order, request);
        let flows = &self.pair.model.state.flows;
        let flows_after = flows.len() + recorded.difference(flows).count();
        let verdict = self.pair.perform_with(lengths, order, request).verdict;
        if verdict > 1 {
            return verdict;
        }
        let state = &self.pair.model.state;
        self.history.follow(request, &recorded, state);
        match request.code {
            code::START => self.order = order,
            code::DELETE => {}
            code::SPREAD => self.must_be_exact(),
            _ => self.must_have_recorded(&recorded, flows_after, request),
        }
        verdict
    }

    /// A load, and its verdict. Past state and order it makes the state of a start, refused
    /// or not.
    pub fn load(&mut self, lengths: Lengths, order: Order, text: &[u8]) -> u8 {
        let verdict = self.pair.load_with(lengths, order, text).verdict;
        if ![2, 3].contains(&verdict) {
            self.order = order;
            self.history = History::begun(&self.pair.model.state);
        }
        verdict
    }

    pub fn order_of_a_new_state(&mut self) -> Order {
        let other = worlds::other_order(&mut self.rng, self.order);
        if self.rng.once_in(2) { other } else { self.order }
    }

    /// Starts may have any order, others only where it makes no difference to the
    /// list: a call performed under another order would leave the lists of the paper.
    pub fn order_for(&mut self, request: Request) -> Order {
        if request.code == code::START {
            return self.order_of_a_new_state();
        }
        let other = worlds::other_order(&mut self.rng, self.order);
        let model = &self.pair.model;
        let wanted = self.rng.once_in(25) && is_refused(model, &other, request);
        if wanted { other } else { self.order }
    }

    /// The numbers in use.
    pub fn living(&self) -> BTreeSet<Number> {
        self.pair.model.state.used().map(|(n, _)| n).collect()
    }

    /// What lives is marked where a chain of joins leads to it from a task that a granted
    /// mark named, and nowhere else; the flows of bridges make no difference to that.
    fn must_be_exact(&self) {
        let (living, state) = (self.living(), &self.pair.model.state);
        let marked = living.iter().copied().filter(|&n| state.is_marked(n)).collect();
        for chains in [Chains::WithBridges, Chains::WithoutBridges] {
            let reached = self.history.reached(&living, chains);
            let (missed, more) = (&reached - &marked, &marked - &reached);
            let exact = missed.is_empty() && more.is_empty();
            let seed = self.seed;
            assert!(
                exact,
                "TUPEHIWO_SEED={seed}, {chains:?}: {missed:?} unmarked, {more:?} marked"
            );
        }
    }

    /// From container to container, at most 127 steps lead from every object to a root.
    pub fn must_end_at_roots(&self) {
        let state = &self.pair.model.state;
        for (n, _) in state.objects() {
            let steps = state.containers(n).take(THINGS).count();
            assert!(steps < THINGS, "from {n} no root is reached: {state:?}");
        }
    }

    /// The two limits on levels, which every state of a list keeps.
    pub fn must_keep_the_limits(&self) {
        let state = &self.pair.model.state;
        let level = |n: Number| state.thing(n).ok().and_then(|thing| thing.level());
        let below = |a: u16, b: u16| at_or_below(&self.order, a, b);
        let covered = |l: u16| self.history.named().any(|e| level(e).is_some_and(|t| below(l, t)));
        for (n, thing) in state.used().filter(|(_, thing)| thing.is_marked()) {
            let contained = thing.level().is_some_and(covered);
            assert!(contained, "{n} is marked above every task marked from outside: {thing:?}");
        }
        for &(from, to) in &state.flows {
            let (Some(source), Some(end)) = (level(from), level(to)) else {
                panic!("the flow {from} to {to} joins no two things in use");
            };
            assert!(below(end, source) || covered(end), "the flow {from} to {to} rises");
        }
    }

    /// The call recorded what its event records, and no other flow.
    fn must_have_recorded(&self, recorded: &Pairs, flows: usize, request: Request) {
        let standing = &self.pair.model.state.flows;
        let all = recorded.is_subset(standing) && standing.len() == flows;
        assert!(all, "TUPEHIWO_SEED={}: {request:?} records not {recorded:?}", self.seed);
    }
}

fn is_refused(model: &Model, order: &Order, request: Request) -> bool {
    let verdict = model.clone().perform(Lengths::RIGHT, order, request).verdict;
    verdict > 1
}
