//! The events: each tests in the order of the paper's table, then records.

use std::collections::BTreeSet;

use super::state::{Mark, Number, Object, Pairs, State, Task, Thing};
use super::{Outcome, Verdict, at_or_below, require};
use tupehiwo::ffi::Order;

/// One event on a sound state, under an order that passes.
pub struct Event<'a> {
    pub state: &'a mut State,
    pub order: &'a Order,
}

impl Event<'_> {
    pub fn start(&mut self) -> Outcome {
        *self.state = State::started(self.order.top);
        Ok(Verdict::Granted)
    }

    pub fn read(&mut self, e: Number, d: Number, o: Number) -> Outcome {
        let (task, driver, object) = self.three(e, d, o)?;
        let by_level = self.le(task.level, driver.level);
        let path = by_level || self.le(task.read_level, driver.level);
        require(path, Verdict::Path)?;
        require(self.le(object.level, driver.level), Verdict::Rule)?;
        let honest = self.le(task.level, object.level) || self.le(task.read_level, object.level);
        let verdict = honest_or_slipped(honest, &driver)?;

        self.state.reads.insert((e, o));
        if driver.is_marked() {
            if task.is_marked() || by_level {
                self.flow(o, e);
                self.flow(d, e);
            }
        } else if task.is_marked() || (self.le(task.level, object.level) && by_level) {
            self.flow(o, e);
        }
        Ok(verdict)
    }

    pub fn write(&mut self, e: Number, d: Number, o: Number) -> Outcome {
        let (task, driver, object) = self.three(e, d, o)?;
        require(self.le(object.level, driver.level), Verdict::Rule)?;
        let verdict = honest_or_slipped(self.le(object.level, task.level), &driver)?;

        self.state.writes.insert((e, o));
        self.flow(e, o);
        if driver.is_marked() {
            self.flow(e, d);
        }
        Ok(verdict)
    }

    pub fn execute(&mut self, e: Number, image: Number, new: Number, l: u16, r: u16) -> Outcome {
        self.state.task(e)?;
        let source = self.state.object(image)?;
        self.state.fit_for_new(new)?;
        self.state.not_taken(new)?;
        require(l < self.order.count && r < self.order.count, Verdict::Scale)?;
        require(self.le(l, source.level) && self.le(r, l), Verdict::Rule)?;

        let task = Task { level: l, read_level: r, mark: Mark::Unmarked };
        self.state.put(new, Thing::Task(task));
        if source.marked {
            self.flow(image, new);
        }
        Ok(Verdict::Granted)
    }

    pub fn create(&mut self, e: Number, d: Number, new: Number, within: Number, l: u16) -> Outcome {
        let container = self.state.object(within)?;
        let (creator, driver) = self.makers(e, d, new)?;
        self.state.not_taken(new)?;
        let held = holds(&self.state.writes, &[(e, within), (d, within)]);
        require(held, Verdict::Held)?;
        require(l < self.order.count, Verdict::Scale)?;
        require(self.le(l, container.level), Verdict::Rule)?;
        self.make_object((e, creator), (d, driver), new, Some(within), l)
    }

    pub fn create_root(&mut self, e: Number, d: Number, new: Number, l: u16) -> Outcome {
        let (creator, driver) = self.makers(e, d, new)?;
        self.state.not_taken(new)?;
        require(l < self.order.count, Verdict::Scale)?;
        self.make_object((e, creator), (d, driver), new, None, l)
    }

    pub fn move_object(
        &mut self,
        e: Number,
        d: Number,
        o: Number,
        from: Number,
        to: Number,
    ) -> Outcome {
        self.state.object(from)?;
        let target = self.state.object(to)?;
        let (task, driver, object) = self.three(e, d, o)?;
        let differ = o != from && o != to && from != to;
        require(differ && object.container == Some(from), Verdict::Place)?;
        require(!self.state.inside(o).contains(&to), Verdict::Place)?;
        let needed = [(e, from), (e, to), (d, from), (d, to)];
        require(holds(&self.state.writes, &needed), Verdict::Held)?;
        require(self.le(object.level, driver.level), Verdict::Rule)?;
        require(self.le(object.level, target.level), Verdict::Rule)?;
        let verdict = honest_or_slipped(self.le(object.level, task.level), &driver)?;

        let container = Some(to);
        self.state.put(o, Thing::Object(Object { container, ..object }));
        if driver.is_marked() {
            self.flow(e, o);
            self.flow(e, d);
        }
        Ok(verdict)
    }

    pub fn delete(&mut self, e: Number, d: Number, o: Number, from: Number) -> Outcome {
        self.state.object(from)?;
        let (task, driver, object) = self.three(e, d, o)?;
        require(object.container == Some(from), Verdict::Place)?;
        let needed = [(e, from), (d, from)];
        require(holds(&self.state.writes, &needed), Verdict::Held)?;
        require(self.le(object.level, task.level), Verdict::Rule)?;
        require(self.le(object.level, driver.level), Verdict::Rule)?;
        let filled = self.state.objects().any(|(_, inner)| inner.container == Some(o));
        require(!filled, Verdict::Filled)?;
        let fed = self.state.fed_by(o);
        let all_marked = fed.iter().all(|&q| self.state.is_marked(q));
        require(!object.marked || all_marked, Verdict::Feeding)?;

        let mut feeders = self.state.feeders_of(o);
        feeders.insert(d);
        self.bridge(&feeders, &fed);
        self.state.put(o, Thing::Free);
        let state = &mut self.state;
        for pairs in [&mut state.flows, &mut state.reads, &mut state.writes] {
            pairs.retain(|&(row, column)| row != o && column != o);
        }
        if driver.is_marked() {
            self.flow(e, d);
        }
        Ok(Verdict::Granted)
    }

    pub fn call(&mut self, from: Number, to: Number) -> Outcome {
        let (caller, callee) = (self.state.task(from)?, self.state.task(to)?);
        let by_level = self.le(caller.level, callee.level);
        let path = by_level || self.le(caller.read_level, callee.level);
        require(path, Verdict::Path)?;

        if caller.is_marked() || by_level {
            self.flow(to, from);
            if callee.is_marked() {
                self.flow(from, to);
            }
        }
        Ok(Verdict::Granted)
    }

    pub fn invoke(&mut self, from: Number, to: Number) -> Outcome {
        let (invoker, invokee) = (self.state.task(from)?, self.state.task(to)?);
        require(self.le(invokee.level, invoker.level), Verdict::Rule)?;

        self.flow(from, to);
        if invoker.is_marked() {
            self.flow(to, from);
        }
        Ok(Verdict::Granted)
    }

    pub fn pass(&mut self, z: Number, x: Number, y: Number) -> Outcome {
        let (reader, object) = (self.state.task(z)?, self.state.object(x)?);
        self.state.thing(y)?;
        require(y != x, Verdict::Place)?;
        let held = holds(&self.state.flows, &[(z, y)]) && holds(&self.state.reads, &[(z, x)]);
        require(held, Verdict::Held)?;
        self.safe_or_marked(&reader, &object)?;
        self.flow(x, y);
        Ok(Verdict::Granted)
    }

    pub fn post(&mut self, x: Number, z: Number, y: Number) -> Outcome {
        self.state.task(x)?;
        let (object, reader) = (self.state.object(z)?, self.state.task(y)?);
        require(x != y, Verdict::Place)?;
        let held = holds(&self.state.flows, &[(x, z)]) && holds(&self.state.reads, &[(y, z)]);
        require(held, Verdict::Held)?;
        self.safe_or_marked(&reader, &object)?;
        self.flow(x, y);
        Ok(Verdict::Granted)
    }

    pub fn find(&mut self, x: Number, z: Number, y: Number) -> Outcome {
        self.state.task(x)?;
        self.state.task(z)?;
        self.state.thing(y)?;
        require(y != x, Verdict::Place)?;
        require(holds(&self.state.flows, &[(x, z), (z, y)]), Verdict::Held)?;
        self.flow(x, y);
        Ok(Verdict::Granted)
    }

    /// At or below.
    fn le(&self, a: u16, b: u16) -> bool {
        at_or_below(self.order, a, b)
    }

    fn flow(&mut self, from: Number, to: Number) {
        self.state.flows.insert((from, to));
    }

    /// Each of the first feeds each of the others, and none itself.
    fn bridge(&mut self, feeders: &BTreeSet<Number>, fed: &BTreeSet<Number>) {
        for &p in feeders {
            for &q in fed.iter().filter(|&&q| q != p) {
                self.flow(p, q);
            }
        }
    }

    /// Asking task, driver and existing object: verdicts 4 and 6.
    fn three(&self, e: Number, d: Number, o: Number) -> Result<(Task, Task, Object), Verdict> {
        let (task, driver) = (self.state.task(e)?, self.state.task(d)?);
        let object = self.state.object(o)?;
        require(object.driver == d, Verdict::Driver)?;
        Ok((task, driver, object))
    }

    /// Creator, driver and new number of a create: verdict 4.
    fn makers(&self, e: Number, d: Number, new: Number) -> Result<(Task, Task), Verdict> {
        let makers = (self.state.task(e)?, self.state.task(d)?);
        self.state.fit_for_new(new)?;
        Ok(makers)
    }

    /// The part that both creates share.
    fn make_object(
        &mut self,
        (e, creator): (Number, Task),
        (d, driver): (Number, Task),
        new: Number,
        container: Option<Number>,
        level: u16,
    ) -> Outcome {
        let rule = self.le(level, creator.level) && self.le(level, driver.level);
        require(rule, Verdict::Rule)?;
        let marked = driver.is_marked();
        let object = Object { level, driver: d, container, marked };
        self.state.put(new, Thing::Object(object));
        if marked {
            self.flow(e, new);
            self.flow(e, d);
        }
        Ok(Verdict::Granted)
    }

    /// Verdict 11 for an unmarked task's risky read: one that its level forbids
    /// while its read level allows it, of the object or through its driver.
    fn safe_or_marked(&self, reader: &Task, object: &Object) -> Result<(), Verdict> {
        let driver = self.state.task(object.driver)?;
        let only_by_read_level =
            |level| !self.le(reader.level, level) && self.le(reader.read_level, level);
        let risky = only_by_read_level(object.level) || only_by_read_level(driver.level);
        require(!risky || reader.is_marked(), Verdict::Rule)
    }
}

/// A test that only an honest driver enforces: a marked one lets it slip.
fn honest_or_slipped(holds: bool, driver: &Task) -> Outcome {
    match (holds, driver.is_marked()) {
        (true, _) => Ok(Verdict::Granted),
        (false, true) => Ok(Verdict::Slipped),
        (false, false) => Err(Verdict::Rule),
    }
}

fn holds(recorded: &Pairs, needed: &[(Number, Number)]) -> bool {
    needed.iter().all(|pair| recorded.contains(pair))
}
