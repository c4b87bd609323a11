//! Calls that nearly fit: one that is granted, with some of what it looks at
//! changed. Each test of each call then is, some time, the only one that fails.

use std::iter;

use tupehiwo::ffi::{Order, Request, code};
use tupehiwo_tests::author::{Author, EDGES};
use tupehiwo_tests::causes::how_many;
use tupehiwo_tests::compare::Pair;
use tupehiwo_tests::model::{Lengths, Model, Number, Object, Pairs, State, THINGS, Task, Thing};
use tupehiwo_tests::request;
use tupehiwo_tests::rng::{Rng, seed};
use tupehiwo_tests::table::{Table, sum_of};
use tupehiwo_tests::{texts, worlds};

/// How often all codes are gone through.
const TURNS: u64 = 10;

/// How many granted calls of a code are looked for in a turn, and how often each is
/// changed. Those with many tests need more.
fn granted_calls(code: u16) -> usize {
    match code {
        code::MOVE => 250,
        code::DELETE => 200,
        code::CALL | code::INVOKE | code::FIND => 60,
        code::MARK | code::SPREAD.. => 15,
        _ => 100,
    }
}

const CHANGES: usize = 20;

/// A call, and what it is lent.
#[derive(Clone)]
struct Scene {
    state: State,
    order: Order,
    lengths: Lengths,
    request: Request,
    /// Bytes put over those of the state.
    damage: Vec<(usize, u8)>,
}

impl Scene {
    /// One that is granted, or a deletion that only its flows refuse; of a code that names no
    /// call, any.
    fn granted(rng: &mut Rng, code: u16) -> Scene {
        let pool: Vec<Number> = (0..128).collect();
        loop {
            let order = worlds::order(rng);
            let state = worlds::dense_state(rng, &order);
            for _ in 0..10 {
                let mut author = Author { rng, state: &state, order: &order, pool: &pool };
                let code = if code > code::SPREAD { author.unknown_code() } else { code };
                let request = author.request_of(code);
                let lengths = Lengths::RIGHT;
                let mut model = Model::new(state.clone());
                let verdict = model.perform(lengths, &order, request).verdict;
                if [0, 16].contains(&verdict) || code > code::SPREAD {
                    return Scene { state, order, lengths, request, damage: vec![] };
                }
            }
        }
    }

    fn change(&mut self, rng: &mut Rng) {
        let starting = self.request.code == code::START;
        match if starting { 16 } else { rng.below(17) } {
            0..3 => self.change_argument(rng),
            3..8 => self.change_levels(rng),
            8..10 => self.change_mark(rng),
            10..13 => self.change_record(rng),
            13 => self.change_place(rng),
            14 => self.change_thing(rng),
            15 => self.change_byte(rng),
            _ if rng.once_in(4) => self.lengths = worlds::lengths(rng),
            _ => self.order = worlds::other_order(rng, self.order),
        }
    }

    fn arguments(&self) -> [u16; 5] {
        let Request { a, b, c, d, e, .. } = self.request;
        [a, b, c, d, e]
    }

    /// A number of the call, or any other.
    fn number(&self, rng: &mut Rng) -> Number {
        let named = self.arguments().into_iter().take(how_many(self.request.code));
        let named = named.filter(|&n| n < 128);
        let any = rng.below(128) as Number;
        let used = rng.pick_any(self.state.used().map(|(n, _)| n)).unwrap_or(any);
        let number = if rng.once_in(4) { None } else { rng.pick_any(named) };
        number.unwrap_or(if rng.once_in(2) { used } else { any })
    }

    /// Another number, an edge, or the least level that is none.
    fn change_argument(&mut self, rng: &mut Rng) {
        let mut arguments = self.arguments();
        // Where it takes none, what is ignored is changed.
        let place = rng.below(how_many(self.request.code).max(1));
        arguments[place] = match rng.below(4) {
            0 => rng.pick(&EDGES),
            1 => self.order.count.saturating_add(rng.below(2) as u16),
            2 => 128 + rng.below(65_000) as u16,
            _ => self.number(rng),
        };
        self.request = request(self.request.code, &arguments);
    }

    fn change_levels(&mut self, rng: &mut Rng) {
        let (n, level) = (self.number(rng), worlds::level(rng, self.order.count));
        let read_level = worlds::level(rng, self.order.count);
        match self.state.things[usize::from(n)] {
            Thing::Task(task) if n == 0 => {
                self.state.put(n, Thing::Task(Task { read_level, ..task }));
            }
            Thing::Task(task) => {
                self.state.put(n, Thing::Task(Task { level, read_level, ..task }));
            }
            Thing::Object(object) => self.state.put(n, Thing::Object(Object { level, ..object })),
            _ => {}
        }
    }

    fn change_mark(&mut self, rng: &mut Rng) {
        let n = self.number(rng);
        worlds::draw_mark(rng, &mut self.state, n);
    }

    /// A flow or access more, or one fewer.
    fn change_record(&mut self, rng: &mut Rng) {
        let pair = (self.number(rng), self.number(rng));
        let State { flows, reads, writes, .. } = &mut self.state;
        let mut kinds: [&mut Pairs; 3] = [flows, reads, writes];
        let kind = &mut kinds[rng.below(3)];
        if !kind.remove(&pair) {
            kind.insert(pair);
        }
    }

    /// A move's new container or one of those around it, and the object, now and then.
    fn nesting(&self, rng: &mut Rng) -> Option<(Number, Number)> {
        let Request { code, c, e, .. } = self.request;
        let around = self.state.containers(e).take(THINGS);
        let nesting = code == code::MOVE && c < 128 && rng.once_in(3);
        let outer = if nesting { rng.pick_any(iter::once(e).chain(around)) } else { None };
        outer.map(|outer| (outer, c))
    }

    /// Another driver or container, a thing of the right kind or not.
    fn change_place(&mut self, rng: &mut Rng) {
        let nesting = self.nesting(rng);
        let (n, other) = nesting.unwrap_or_else(|| (self.number(rng), self.number(rng)));
        if let Ok(object) = self.state.object(n) {
            let container = (!rng.once_in(3)).then_some(other);
            let changed = match rng.below(2) {
                0 => Object { driver: other, ..object },
                _ => Object { container, ..object },
            };
            self.state.put(n, Thing::Object(changed));
        }
    }

    /// Another kind of thing, or none.
    fn change_thing(&mut self, rng: &mut Rng) {
        let count = self.order.count;
        let task = worlds::random_task(rng, count);
        let driver = rng.pick_any(self.state.tasks()).unwrap_or(0);
        let level = worlds::level(rng, count);
        let object = Object { level, driver, container: None, marked: false };
        let thing = rng.pick(&[Thing::Free, Thing::Task(task), Thing::Object(object)]);
        let n = if rng.once_in(3) { 0 } else { self.number(rng) };
        self.state.put(n, thing);
    }

    fn change_byte(&mut self, rng: &mut Rng) {
        let n = usize::from(self.number(rng));
        let other = self.number(rng) as u8;
        let value = rng.pick(&[0, 1, 2, 3, 4, 127, 128, 200, 254, 255, n as u8, other]);
        self.damage.push((8 * n + rng.below(8), value));
    }

    /// Makes the call of the library and the model, on any list.
    fn perform(self, rng: &mut Rng, pair: &mut Pair) {
        pair.set_tallies(worlds::tallies(rng));
        pair.set_state(self.state);
        for (place, value) in self.damage {
            pair.set_byte(place, value);
        }
        pair.perform_with(self.lengths, self.order, self.request);
    }
}

/// Calls of one code, each granted or nearly so.
fn nearly_granted(seed: u64, code: u16) -> Table {
    let mut rng = Rng::new(seed);
    let mut pair = Pair::new(format!("code {code} from the seed {seed}"));
    for _ in 0..granted_calls(code) {
        let scene = Scene::granted(&mut rng, code);
        scene.clone().perform(&mut rng, &mut pair);
        for _ in 0..CHANGES {
            let mut changed = scene.clone();
            (0..1 + rng.below(2)).for_each(|_| changed.change(&mut rng));
            changed.perform(&mut rng, &mut pair);
        }
    }
    pair.table
}

/// How many texts are loaded in a turn.
const TEXTS: usize = 4000;

/// Loads, each granted or nearly so.
fn nearly_loaded(seed: u64) -> Table {
    let mut rng = Rng::new(seed);
    let mut pair = Pair::new(format!("loads from the seed {seed}"));
    for _ in 0..TEXTS {
        let order = worlds::order(&mut rng);
        let most = rng.pick(&[1, 2, 4, 8, 16, 30]);
        let mut text = texts::written(&texts::granted(&mut rng, &order, most));
        let (mut lengths, mut lent) = (Lengths::RIGHT, order);
        match rng.below(12) {
            0..5 => texts::change_number(&mut rng, &order, &mut text),
            5 | 6 => texts::change_driver(&mut rng, &mut text),
            7 => text = texts::any(&mut rng, &order),
            8 => lent = worlds::other_order(&mut rng, order),
            9 => lengths = worlds::lengths(&mut rng),
            _ => texts::damage(&mut rng, &mut text),
        }
        pair.set_tallies(worlds::tallies(&mut rng));
        pair.load_with(lengths, lent, &text);
    }
    pair.table
}

#[test]
fn every_cause_occurs() {
    let first = seed("every_cause_occurs");
    let codes = u64::from(code::SPREAD) + 2;
    let table = sum_of(0..TURNS * (codes + 1), |number| {
        let seed = first.wrapping_add(number);
        match number % (codes + 1) {
            code if code < codes => nearly_granted(seed, code as u16),
            _ => nearly_loaded(seed),
        }
    });
    let causes = &table.causes;
    println!("{} calls on memory that nearly fits\n{table}", table.calls());
    println!("{}\n{causes}", causes.summary());
    table.must_be_complete();
    causes.must_be_complete();
}
