//! Random calls that look at the state: most fit it, and some fail in one place.

use crate::model::{Number, Object, Pairs, State, THINGS, at_or_below};
use crate::request;
use crate::rng::Rng;
use tupehiwo::ffi::{Order, Request, code};

/// Numbers at the edges of what fits.
pub const EDGES: [Number; 6] = [0, 127, 128, 255, 256, 65535];

pub struct Author<'a> {
    pub rng: &'a mut Rng,
    pub state: &'a State,
    pub order: &'a Order,
    /// Numbers that new things get: a few give dense worlds, all give wide ones.
    pub pool: &'a [Number],
}

/// How often each code is asked for. Starts, marks and spreads are rare, so
/// that worlds grow and not everything is marked.
const WEIGHTS: [(u16, usize); 17] = [
    (code::START, 1),
    (code::READ, 40),
    (code::WRITE, 40),
    (code::EXECUTE, 8),
    (code::CREATE, 40),
    (code::CREATE_ROOT, 4),
    (code::MOVE, 40),
    (code::DELETE, 30),
    (code::CALL, 20),
    (code::INVOKE, 15),
    (code::PASS, 25),
    (code::POST, 25),
    (code::FIND, 25),
    (code::MARK, 3),
    (code::STEP, 10),
    (code::SPREAD, 3),
    (UNKNOWN, 4),
];

/// Stands for any code that names no call.
const UNKNOWN: u16 = 16;

impl Author<'_> {
    /// Any call. A young world first gets some roots and tasks.
    pub fn request(&mut self) -> Request {
        let young = self.state.used().count() < 6;
        let code = if young && self.rng.once_in(2) {
            self.rng.pick(&[code::CREATE_ROOT, code::EXECUTE])
        } else {
            self.code()
        };
        self.request_of(code)
    }

    /// A call of this code: in one of six, one argument is a stray.
    pub fn request_of(&mut self, code: u16) -> Request {
        let mut arguments = self.fitting(code);
        if self.rng.once_in(6) && !arguments.is_empty() {
            let place = self.rng.below(arguments.len());
            arguments[place] = self.stray();
        }
        // What a call does not use is ignored, whatever it is.
        arguments.resize_with(5, || self.rng.bits() as u16);
        request(code, &arguments)
    }

    fn code(&mut self) -> u16 {
        let total = WEIGHTS.iter().map(|(_, weight)| weight).sum();
        let mut place = self.rng.below(total);
        for (code, weight) in WEIGHTS {
            if place < weight {
                return if code == UNKNOWN { self.unknown_code() } else { code };
            }
            place -= weight;
        }
        unreachable!("the place is below the sum of the weights")
    }

    /// A code that names no call; cut to eight bits, some would.
    pub fn unknown_code(&mut self) -> u16 {
        self.rng.pick(&[16, 17, 18, 31, 127, 255, 256, 257, 271, 4096, 32768, 65535])
    }

    fn fitting(&mut self, code: u16) -> Vec<Number> {
        match code {
            code::READ | code::WRITE => self.access(),
            code::EXECUTE => self.execution(),
            code::CREATE => self.creation(),
            code::CREATE_ROOT => {
                let (creator, driver) = (self.task(), self.task());
                vec![creator, driver, self.new_number(), self.level_under(driver)]
            }
            code::MOVE => self.moving(),
            code::DELETE => {
                let (object, driver, container) = self.contained();
                vec![self.writer(&[container]), driver, object, container]
            }
            code::CALL | code::INVOKE => vec![self.task(), self.task()],
            code::PASS => {
                let (z, x) = self.recorded(&self.state.reads);
                vec![z, x, self.fed_by(z)]
            }
            code::POST => {
                let (y, z) = self.recorded(&self.state.reads);
                vec![self.feeder_of(z), z, y]
            }
            code::FIND => {
                let (x, z) = self.flow_between_tasks();
                vec![x, z, self.fed_by(z)]
            }
            code::MARK => vec![self.task()],
            code::STEP => vec![self.next_to_mark()],
            _ => vec![],
        }
    }

    /// Task, driver and object of a read or write. Drivers often ask too: the
    /// creates and moves need their accesses.
    fn access(&mut self) -> Vec<Number> {
        let object = self.object();
        let driver = self.driver_of(object);
        let task = if self.rng.once_in(3) { self.any_driver() } else { self.task() };
        vec![task, driver, object]
    }

    fn execution(&mut self) -> Vec<Number> {
        let image = self.object();
        let level = self.level_under(image);
        let read_level = self.level_at_or_below(level);
        vec![self.task(), image, self.new_number(), level, read_level]
    }

    fn creation(&mut self) -> Vec<Number> {
        let (_, container) = self.recorded(&self.state.writes);
        let (creator, driver) = (self.writer(&[container]), self.writer(&[container]));
        vec![creator, driver, self.new_number(), container, self.level_under(container)]
    }

    /// Now and then an object is to go into what lies inside it.
    fn moving(&mut self) -> Vec<Number> {
        let nested = if self.rng.once_in(5) { self.nested() } else { None };
        let [object, driver, from, to] = nested.unwrap_or_else(|| self.movable());
        vec![self.writer(&[from, to]), driver, object, from, to]
    }

    /// Object, driver and containers of a move.
    fn movable(&mut self) -> [Number; 4] {
        let (object, driver, from) = self.contained();
        let apt = |&(task, to): &(Number, Number)| {
            task == driver && to != from && to != object && self.state.object(to).is_ok()
        };
        let targets = self.state.writes.iter().copied().filter(apt).map(|(_, to)| to);
        let to = self.rng.pick_any(targets).unwrap_or_else(|| self.object());
        [object, driver, from, to]
    }

    /// The same with the new container anywhere inside the object, if there is one so.
    fn nested(&mut self) -> Option<[Number; 4]> {
        let to = self.object();
        let around = self.state.containers(to).take(THINGS);
        let objects = around.filter_map(|n| self.state.object(n).ok().map(|object| (n, object)));
        let contained = objects.filter(|(_, object)| object.container.is_some());
        let (object, Object { driver, container, .. }) = self.rng.pick_any(contained)?;
        Some([object, driver, container?, to])
    }

    fn task(&mut self) -> Number {
        self.rng.pick_any(self.state.tasks()).unwrap_or(0)
    }

    fn object(&mut self) -> Number {
        let objects = self.state.objects().map(|(n, _)| n);
        self.rng.pick_any(objects).unwrap_or_else(|| self.stray())
    }

    fn thing(&mut self) -> Number {
        self.rng.pick_any(self.state.used().map(|(n, _)| n)).unwrap_or(0)
    }

    fn new_number(&mut self) -> Number {
        let free = self.pool.iter().copied().filter(|&n| self.state.thing(n).is_err());
        self.rng.pick_any(free).unwrap_or_else(|| self.rng.pick(self.pool))
    }

    fn driver_of(&mut self, object: Number) -> Number {
        self.state.object(object).map_or_else(|_| self.task(), |object| object.driver)
    }

    fn any_driver(&mut self) -> Number {
        let object = self.object();
        self.driver_of(object)
    }

    /// An object with its driver and container, in a container if there is one so.
    fn contained(&mut self) -> (Number, Number, Number) {
        let objects = self.state.objects();
        let inside = objects.filter_map(|(n, o)| o.container.map(|within| (n, o.driver, within)));
        self.rng.pick_any(inside).unwrap_or_else(|| {
            let object = self.object();
            (object, self.driver_of(object), self.object())
        })
    }

    /// A task that may write all of these, if there is one.
    fn writer(&mut self, containers: &[Number]) -> Number {
        let writes = &self.state.writes;
        let holds = |task: &Number| containers.iter().all(|&c| writes.contains(&(*task, c)));
        self.rng.pick_any(self.state.tasks().filter(holds)).unwrap_or_else(|| self.task())
    }

    /// A recorded access of a task to an object, if there is one.
    fn recorded(&mut self, accesses: &Pairs) -> (Number, Number) {
        let fit =
            |&(e, o): &(Number, Number)| self.state.task(e).is_ok() && self.state.object(o).is_ok();
        let recorded = self.rng.pick_any(accesses.iter().copied().filter(fit));
        recorded.unwrap_or_else(|| (self.task(), self.object()))
    }

    fn flow_between_tasks(&mut self) -> (Number, Number) {
        let is_task = |n| self.state.task(n).is_ok();
        let flows = self.state.flows.iter().copied();
        let between = flows.filter(|&(from, to)| is_task(from) && is_task(to));
        self.rng.pick_any(between).unwrap_or_else(|| (self.task(), self.task()))
    }

    fn fed_by(&mut self, source: Number) -> Number {
        let flows = self.state.flows.iter().copied();
        let ends = flows.filter(|&(from, _)| from == source).map(|(_, to)| to);
        self.rng.pick_any(ends).unwrap_or_else(|| self.thing())
    }

    fn feeder_of(&mut self, end: Number) -> Number {
        let flows = self.state.flows.iter().copied();
        let sources = flows.filter(|&(_, to)| to == end).map(|(from, _)| from);
        self.rng.pick_any(sources).unwrap_or_else(|| self.task())
    }

    /// An unmarked thing that a marked one feeds, if there is one.
    fn next_to_mark(&mut self) -> Number {
        let flows = self.state.flows.iter().copied();
        let open = |&(from, to): &(Number, Number)| {
            self.state.is_marked(from) && !self.state.is_marked(to)
        };
        self.rng.pick_any(flows.filter(open).map(|(_, to)| to)).unwrap_or_else(|| self.thing())
    }

    fn level(&mut self) -> u16 {
        self.rng.below(self.order.count.clamp(1, 16).into()) as u16
    }

    /// Mostly at or below the level of a thing.
    fn level_under(&mut self, thing: Number) -> u16 {
        let level = self.state.thing(thing).ok().and_then(|thing| thing.level());
        match level {
            Some(level) => self.level_at_or_below(level),
            None => self.level(),
        }
    }

    fn level_at_or_below(&mut self, level: u16) -> u16 {
        let lower = (0..self.order.count.min(16)).filter(|&l| at_or_below(self.order, l, level));
        let lower = if self.rng.once_in(5) { None } else { self.rng.pick_any(lower) };
        lower.unwrap_or_else(|| self.level())
    }

    /// Any number: of another kind, free, at an edge, or far off.
    fn stray(&mut self) -> Number {
        match self.rng.below(6) {
            0 => self.task(),
            1 => self.thing(),
            2 => self.rng.pick(&EDGES),
            3 => self.rng.below(THINGS) as Number,
            4 => self.rng.below(20) as Number,
            _ => self.rng.bits() as Number,
        }
    }
}
