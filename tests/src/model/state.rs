use std::collections::BTreeSet;

use super::{Verdict, require};
use tupehiwo::ffi::Order;

pub const THINGS: usize = 128;
pub const BYTES: usize = 1024;
pub const WORDS: usize = 768;

pub const RECORD: usize = 8;

const WORDS_OF_A_KIND: usize = 256;
const ROOT: u8 = 255;

pub type Number = u16;
pub type Pairs = BTreeSet<(Number, Number)>;

/// By the number in the record.
#[derive(Clone, Copy, Debug, PartialEq, Eq)]
pub enum Mark {
    Unmarked = 0,
    Marked = 1,
    Outside = 3,
}

#[derive(Clone, Copy, Debug, PartialEq, Eq)]
pub struct Task {
    pub level: u16,
    pub read_level: u16,
    pub mark: Mark,
}

#[derive(Clone, Copy, Debug, PartialEq, Eq)]
pub struct Object {
    pub level: u16,
    pub driver: Number,
    /// `None` for a root.
    pub container: Option<Number>,
    pub marked: bool,
}

#[derive(Clone, Copy, Debug, PartialEq, Eq)]
pub enum Thing {
    Free,
    Task(Task),
    Object(Object),
    /// Bytes that no order and no other record make sound.
    Damaged([u8; RECORD]),
}

/// All that the lent memory says, sound or not.
#[derive(Clone, Debug, PartialEq, Eq)]
pub struct State {
    pub things: Vec<Thing>,
    /// From a thing to the thing it feeds.
    pub flows: Pairs,
    /// From a task to the object that it may read.
    pub reads: Pairs,
    /// From a task to the object that it may write.
    pub writes: Pairs,
}

impl Task {
    pub fn is_marked(&self) -> bool {
        self.mark != Mark::Unmarked
    }
}

impl Thing {
    pub fn is_marked(&self) -> bool {
        match self {
            Thing::Task(task) => task.is_marked(),
            Thing::Object(object) => object.marked,
            Thing::Free | Thing::Damaged(_) => false,
        }
    }

    pub fn level(&self) -> Option<u16> {
        match self {
            Thing::Task(task) => Some(task.level),
            Thing::Object(object) => Some(object.level),
            Thing::Free | Thing::Damaged(_) => None,
        }
    }

    /// What the bytes of a record say.
    pub fn read(record: &[u8]) -> Thing {
        let record: [u8; RECORD] = record.try_into().expect("a record has eight bytes");
        match record {
            [0, 0, 0, 0, 0, 0, 0, 0] => Thing::Free,
            [1, level, read_level, 0, 0, marks @ (0 | 1 | 3), 0, 0] => Thing::Task(Task {
                level: level.into(),
                read_level: read_level.into(),
                mark: match marks {
                    0 => Mark::Unmarked,
                    1 => Mark::Marked,
                    _ => Mark::Outside,
                },
            }),
            [2, level, 0, driver, container, marks @ (0 | 1), 0, 0] => Thing::Object(Object {
                level: level.into(),
                driver: driver.into(),
                container: (container != ROOT).then_some(container.into()),
                marked: marks == 1,
            }),
            damaged => Thing::Damaged(damaged),
        }
    }

    /// The bytes that say this.
    pub fn record(&self) -> [u8; RECORD] {
        match *self {
            Thing::Free => [0; RECORD],
            Thing::Task(task) => {
                let (level, read_level) = (byte(task.level), byte(task.read_level));
                [1, level, read_level, 0, 0, task.mark as u8, 0, 0]
            }
            Thing::Object(object) => {
                let container = object.container.map_or(ROOT, byte);
                let (level, driver) = (byte(object.level), byte(object.driver));
                [2, level, 0, driver, container, object.marked.into(), 0, 0]
            }
            Thing::Damaged(record) => record,
        }
    }
}

fn byte(value: u16) -> u8 {
    value.try_into().expect("a record's values are bytes")
}

impl State {
    /// The state of a start: the core alone, at the top.
    pub fn started(top: u16) -> State {
        let core = Task { level: top, read_level: top, mark: Mark::Unmarked };
        let mut state = State::read(&[0; BYTES], &[0; WORDS]);
        state.things[0] = Thing::Task(core);
        state
    }

    /// What bytes and words of the right lengths say.
    pub fn read(bytes: &[u8], words: &[u64]) -> State {
        assert_eq!((bytes.len(), words.len()), (BYTES, WORDS));
        let mut kinds = words.chunks(WORDS_OF_A_KIND).map(read_pairs);
        let mut pairs = || kinds.next().expect("three kinds of rows");
        State {
            things: bytes.chunks_exact(RECORD).map(Thing::read).collect(),
            flows: pairs(),
            reads: pairs(),
            writes: pairs(),
        }
    }

    /// The bytes and words that say this.
    pub fn write(&self, bytes: &mut [u8], words: &mut [u64]) {
        for (record, thing) in bytes.chunks_exact_mut(RECORD).zip(&self.things) {
            record.copy_from_slice(&thing.record());
        }
        words.fill(0);
        let kinds = words.chunks_mut(WORDS_OF_A_KIND);
        for (rows, pairs) in kinds.zip([&self.flows, &self.reads, &self.writes]) {
            for &(row, column) in pairs {
                rows[2 * usize::from(row) + usize::from(column) / 64] |= 1 << (column % 64);
            }
        }
    }

    pub fn is_sound(&self, order: &Order) -> bool {
        let scaled = |level| level < order.count;
        let sound = |n: usize| match &self.things[n] {
            Thing::Free => true,
            Thing::Task(task) => scaled(task.level) && scaled(task.read_level),
            Thing::Object(object) => {
                scaled(object.level)
                    && self.task(object.driver).is_ok()
                    && object
                        .container
                        .is_none_or(|c| usize::from(c) != n && self.object(c).is_ok())
            }
            Thing::Damaged(_) => false,
        };
        (0..THINGS).all(sound) && self.task(0).is_ok_and(|core| core.level == order.top)
    }

    /// The numbers and things in use.
    pub fn used(&self) -> impl Iterator<Item = (Number, &Thing)> + Clone {
        let numbered = (0..).zip(&self.things);
        numbered.filter(|(_, thing)| **thing != Thing::Free)
    }

    pub fn tasks(&self) -> impl Iterator<Item = Number> + Clone {
        let is_task = |(n, thing): (Number, &Thing)| matches!(thing, Thing::Task(_)).then_some(n);
        self.used().filter_map(is_task)
    }

    pub fn objects(&self) -> impl Iterator<Item = (Number, Object)> + Clone {
        self.used().filter_map(|(n, thing)| match thing {
            Thing::Object(object) => Some((n, *object)),
            _ => None,
        })
    }

    /// All that lies anywhere inside an object: what lies in it, what lies in that, and so
    /// on. Where containers go in a circle, an object may lie inside itself.
    pub fn inside(&self, object: Number) -> BTreeSet<Number> {
        let mut inside = BTreeSet::new();
        let mut open = vec![object];
        while let Some(container) = open.pop() {
            let held = self.objects().filter(|(_, inner)| inner.container == Some(container));
            open.extend(held.map(|(n, _)| n).filter(|&n| inside.insert(n)));
        }
        inside
    }

    /// From container to container, from that of an object on. A root ends it, and a circle
    /// does not.
    pub fn containers(&self, object: Number) -> impl Iterator<Item = Number> + Clone {
        let container = |n: &Number| self.object(*n).ok().and_then(|object| object.container);
        std::iter::successors(container(&object), container)
    }

    /// Whether an object lies in itself, by way of others.
    pub fn is_in_itself(&self, object: Number) -> bool {
        self.containers(object).take(THINGS).any(|outer| outer == object)
    }

    /// The other things in use that a thing has a flow to.
    pub fn fed_by(&self, n: Number) -> BTreeSet<Number> {
        let fed = self.flows.range((n, 0)..=(n, Number::MAX)).map(|&(_, to)| to);
        fed.filter(|&to| to != n && self.thing(to).is_ok()).collect()
    }

    /// The other things in use with a flow to a thing.
    pub fn feeders_of(&self, n: Number) -> BTreeSet<Number> {
        let feeders = self.flows.iter().filter(|&&(_, to)| to == n).map(|&(from, _)| from);
        feeders.filter(|&from| from != n && self.thing(from).is_ok()).collect()
    }

    pub fn is_marked(&self, n: Number) -> bool {
        self.things.get(usize::from(n)).is_some_and(Thing::is_marked)
    }

    /// The task of this number, or verdict 4.
    pub fn task(&self, n: Number) -> Result<Task, Verdict> {
        match self.things.get(usize::from(n)) {
            Some(Thing::Task(task)) => Ok(*task),
            _ => Err(Verdict::Number),
        }
    }

    /// The object of this number, or verdict 4.
    pub fn object(&self, n: Number) -> Result<Object, Verdict> {
        match self.things.get(usize::from(n)) {
            Some(Thing::Object(object)) => Ok(*object),
            _ => Err(Verdict::Number),
        }
    }

    /// A thing in use, or verdict 4.
    pub fn thing(&self, n: Number) -> Result<&Thing, Verdict> {
        let thing = self.things.get(usize::from(n)).ok_or(Verdict::Number)?;
        require(*thing != Thing::Free, Verdict::Number)?;
        Ok(thing)
    }

    /// A number that a new thing may have at all, or verdict 4.
    pub fn fit_for_new(&self, n: Number) -> Result<(), Verdict> {
        require(usize::from(n) < THINGS, Verdict::Number)
    }

    /// Verdict 5 for a number in use.
    pub fn not_taken(&self, n: Number) -> Result<(), Verdict> {
        require(self.things[usize::from(n)] == Thing::Free, Verdict::Taken)
    }

    pub fn put(&mut self, n: Number, thing: Thing) {
        self.things[usize::from(n)] = thing;
    }
}

fn read_pairs(rows: &[u64]) -> Pairs {
    let mut pairs = Pairs::new();
    for (w, &word) in (0..).zip(rows).filter(|(_, word)| **word != 0) {
        let columns = (0..64).filter(|bit| word & (1 << bit) != 0);
        pairs.extend(columns.map(|bit| (w / 2, w % 2 * 64 + bit)));
    }
    pairs
}
