//! Calls on sound memory that no list need leave.

use std::collections::BTreeMap;

use crate::author::Author;
use crate::compare::{Engine, Pair};
use crate::model::{Number, State};
use crate::rng::Rng;
use crate::table::Table;
use crate::{texts, worlds};
use tupehiwo::ffi::{Order, Request};

/// In how many memories each was found that no list of calls leaves.
pub type Unreached = BTreeMap<&'static str, u64>;

pub struct Memory {
    rng: Rng,
    pair: Pair,
    /// The order that it is sound under.
    usual: Order,
}

impl Memory {
    /// One of such states, sound under any order.
    pub fn new(seed: u64, states: fn(&mut Rng, &Order) -> State) -> Memory {
        Memory::beside(&[], seed, states)
    }

    /// The same with other engines beside the library.
    pub fn beside(others: &[Engine], seed: u64, states: fn(&mut Rng, &Order) -> State) -> Memory {
        let mut rng = Rng::new(seed);
        let mut pair = Pair::beside(others, format!("memory of TUPEHIWO_SEED={seed}"));
        let usual = worlds::order(&mut rng);
        pair.set_state(states(&mut rng, &usual));
        Memory { rng, pair, usual }
    }

    /// So many calls. The memory is damaged now and then, and the order is its own or another.
    pub fn calls(mut self, count: usize, unreached: &mut Unreached) -> Table {
        for (what, found) in worlds::unreached(&self.pair.model.state, &self.usual) {
            *unreached.entry(what).or_default() += u64::from(found);
        }
        let pool: Vec<Number> = worlds::numbers().collect();
        for _ in 0..count {
            self.any_call(&pool);
        }
        self.pair.table
    }

    fn any_call(&mut self, pool: &[Number]) {
        let Memory { rng, pair, usual } = self;
        pair.set_tallies(worlds::tallies(rng));
        if rng.once_in(40) {
            let value = rng.pick(&[0, 1, 2, 3, 4, 127, 128, 255]);
            pair.set_byte(rng.below(1024), value);
        }
        let order = if rng.once_in(6) { worlds::other_order(rng, *usual) } else { *usual };
        if rng.once_in(15) {
            let text = texts::any(rng, usual);
            pair.load_with(worlds::lengths(rng), order, &text);
            return;
        }
        let starting = rng.once_in(30);
        let mut author = Author { rng, state: &pair.model.state, order: &order, pool };
        let request = if starting { Request::default() } else { author.request() };
        pair.perform_with(worlds::lengths(rng), order, request);
    }
}

/// Each was found in more than one of fifty memories.
pub fn must_be_unreached(unreached: &Unreached, memories: u64) {
    for (what, times) in unreached {
        println!("that no list leaves, in {times} memories of {memories}: {what}");
        assert!(*times > memories / 50);
    }
}
