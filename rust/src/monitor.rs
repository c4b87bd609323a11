use crate::ffi::{self, Order, Request, Tally, code};
use crate::report::Report;
use crate::told::Told;
use crate::verdict::Verdict;

/// Bytes of memory: eight for each number.
pub const BYTES: usize = 1024;
/// Words of memory: flows at 0, read accesses at 256, write accesses at 512.
pub const WORDS: usize = 768;
/// Tallies of memory: one for each number.
pub const TALLIES: usize = 128;

/// What a spread answers.
#[must_use = "a refused call has done nothing"]
#[derive(Clone, Copy, Debug, PartialEq, Eq)]
pub struct Answer {
    pub verdict: Verdict,
    /// Rounds that marked something; 0 when refused.
    pub rounds: u8,
}

/// The owner of a monitor's memory, with a method for each call.
///
/// Numbers of tasks and objects go from 0 to 127; task 0 is the core. A number
/// or level that does not fit is refused, never a panic.
///
/// Two monitors are equal if their memory and their orders are, whatever the drivers of their
/// last calls are told.
#[derive(Clone, Debug)]
pub struct Monitor {
    bytes: Box<[u8; BYTES]>,
    words: Box<[u64; WORDS]>,
    tallies: Box<[Tally; TALLIES]>,
    order: Order,
    told: Option<Told>,
}

impl PartialEq for Monitor {
    fn eq(&self, other: &Monitor) -> bool {
        // All fields by name: one that is added has to be thought of here.
        let Monitor { bytes, words, tallies, order, told: _ } = self;
        *bytes == other.bytes
            && *words == other.words
            && *tallies == other.tallies
            && *order == other.order
    }
}

impl Eq for Monitor {}

impl Default for Monitor {
    fn default() -> Monitor {
        Monitor::new()
    }
}

impl Monitor {
    /// Memory of zeros: every call but a start or a load is refused with `State`.
    pub fn new() -> Monitor {
        let tallies = [Tally::default(); TALLIES];
        Monitor::from_memory([0; BYTES], [0; WORDS], tallies, Order::default())
    }

    /// Goes on with memory that another monitor left, or any other: where it is
    /// not sound, every call but a start or a load is refused with `State`.
    ///
    /// ```
    /// use tupehiwo::{Monitor, Order, Verdict};
    ///
    /// let mut first = Monitor::new();
    /// assert_eq!(first.start(Order::new(0, [1])), Verdict::Granted);
    /// let (bytes, words, tallies) = (*first.bytes(), *first.words(), *first.tallies());
    /// let second = Monitor::from_memory(bytes, words, tallies, first.order());
    /// assert_eq!(second, first);
    /// ```
    pub fn from_memory(
        bytes: [u8; BYTES],
        words: [u64; WORDS],
        tallies: [Tally; TALLIES],
        order: Order,
    ) -> Monitor {
        Monitor {
            bytes: Box::new(bytes),
            words: Box::new(words),
            tallies: Box::new(tallies),
            order,
            told: None,
        }
    }

    /// The records of the things.
    pub fn bytes(&self) -> &[u8; BYTES] {
        &self.bytes
    }

    /// The rows of flows and accesses.
    pub fn words(&self) -> &[u64; WORDS] {
        &self.words
    }

    /// The tally of each number; [`tally`](Monitor::tally) says what counts where.
    pub fn tallies(&self) -> &[Tally; TALLIES] {
        &self.tallies
    }

    /// How many calls of a task were granted, slipped and refused, as far as the list
    /// goes back: at most to the last granted start or load. `None` for 128 and more.
    ///
    /// A call counts once, on the task that asks: its first number, if that names a
    /// task before the call. Tally 0 is the core's, and has the calls too that count
    /// on no task: every start, load, mark, step and spread, those refused with
    /// `State` or `Order`, and those whose first number names no task. A report is
    /// not counted.
    ///
    /// ```
    /// use tupehiwo::{Monitor, Order, Tally, Verdict};
    ///
    /// let mut monitor = Monitor::new();
    /// assert_eq!(monitor.start(Order::new(0, [1])), Verdict::Granted);
    /// assert_eq!(monitor.create_root(0, 0, 10, 0), Verdict::Granted);
    /// assert_eq!(monitor.execute(0, 10, 1, 0, 0), Verdict::Granted);
    ///
    /// // The tasks are 0 and 1. Task 1 asks twice; number 2 is free.
    /// assert_eq!(monitor.call(1, 0), Verdict::Granted);
    /// assert_eq!(monitor.call(1, 2), Verdict::Number);
    /// assert_eq!(monitor.call(2, 1), Verdict::Number);
    ///
    /// assert_eq!(monitor.tally(0), Some(Tally { granted: 3, slipped: 0, refused: 1 }));
    /// assert_eq!(monitor.tally(1), Some(Tally { granted: 1, slipped: 0, refused: 1 }));
    /// assert_eq!(monitor.tally(2), Some(Tally::default()));
    /// assert_eq!(monitor.tally(128), None);
    /// ```
    pub fn tally(&self, number: u16) -> Option<Tally> {
        self.tallies.get(usize::from(number)).copied()
    }

    /// Whom to ring: each number whose calls were refused, with its tally, the
    /// numbers rising.
    ///
    /// Number 0 is there for the core's calls, or for those that no task asked for,
    /// as [`tally`](Monitor::tally) says. Read the list before the next start or load:
    /// a granted one clears it.
    ///
    /// ```
    /// use tupehiwo::{Monitor, Order, Tally, Verdict};
    ///
    /// // A table at the top, and tasks of two shops below it.
    /// let layout = b"(object 10 driver 0 level 1)\n\
    ///                (object 11 driver 0 level 0)\n\
    ///                (task 1 image 11 level 0 reads 0)\n\
    ///                (task 2 image 11 level 0 reads 0)\n";
    /// let mut monitor = Monitor::new();
    /// assert_eq!(monitor.load(Order::new(1, [3, 2]), layout), Verdict::Granted);
    /// assert_eq!(monitor.refused().next(), None);
    ///
    /// // Both read the table, and the second shop's task tries to write it, twice.
    /// assert_eq!(monitor.read(1, 0, 10), Verdict::Granted);
    /// assert_eq!(monitor.read(2, 0, 10), Verdict::Granted);
    /// assert_eq!(monitor.write(2, 0, 10), Verdict::Rule);
    /// assert_eq!(monitor.write(2, 0, 10), Verdict::Rule);
    ///
    /// let refused: Vec<(u16, Tally)> = monitor.refused().collect();
    /// assert_eq!(refused, [(2, Tally { granted: 1, slipped: 0, refused: 2 })]);
    /// ```
    pub fn refused(&self) -> impl Iterator<Item = (u16, Tally)> {
        (0..).zip(self.tallies.iter().copied()).filter(|(_, tally)| tally.refused != 0)
    }

    /// The order of the last start or load that made the state anew.
    pub fn order(&self) -> Order {
        self.order
    }

    /// The word for the driver of the last call: `Yes` if it was granted, `No` if it slipped or
    /// was refused. Read, write, execute, both creates, move, call and invoke have a word; after
    /// any other call, after a load, and before the first, there is none.
    ///
    /// The verdict is for whoever runs the monitor, the word for the driver: a driver that is
    /// given the word alone does not learn from that one call who is marked. The verdict may show
    /// it: a mark alone can turn `Rule` into `Slipped`, and of a deletion `Granted` into
    /// `Feeding`, which is why a deletion has no word. That covers one call: a slip is told no
    /// and yet carried out, and later calls see what it recorded.
    ///
    /// ```
    /// use tupehiwo::{Monitor, Order, Told, Verdict};
    ///
    /// // A diamond of levels: 1 and 2 are unrelated.
    /// let mut monitor = Monitor::new();
    /// assert_eq!(monitor.start(Order::new(3, [15, 10, 12, 8])), Verdict::Granted);
    /// assert_eq!(monitor.told(), None);
    /// assert_eq!(monitor.create_root(0, 0, 10, 3), Verdict::Granted); // an image
    /// assert_eq!(monitor.execute(0, 10, 1, 1, 1), Verdict::Granted); // a task at 1
    /// assert_eq!(monitor.execute(0, 10, 2, 3, 3), Verdict::Granted); // a driver at 3
    /// assert_eq!(monitor.create_root(0, 2, 20, 2), Verdict::Granted); // its object at 2
    /// assert_eq!(monitor.create_root(0, 2, 21, 3), Verdict::Granted); // and one at 3
    ///
    /// assert_eq!(monitor.read(1, 2, 21), Verdict::Granted);
    /// assert_eq!(monitor.told(), Some(Told::Yes));
    ///
    /// // The verdict shows whether the driver is marked, the word does not.
    /// assert_eq!(monitor.read(1, 2, 20), Verdict::Rule);
    /// assert_eq!(monitor.told(), Some(Told::No));
    /// assert_eq!(monitor.mark(2), Verdict::Granted);
    /// assert_eq!(monitor.told(), None);
    /// assert_eq!(monitor.read(1, 2, 20), Verdict::Slipped);
    /// assert_eq!(monitor.told(), Some(Told::No));
    ///
    /// // A deletion has no word.
    /// assert_eq!(monitor.write(0, 0, 10), Verdict::Granted);
    /// assert_eq!(monitor.create(0, 0, 11, 10, 0), Verdict::Granted);
    /// assert_eq!(monitor.delete(0, 0, 11, 10), Verdict::Granted);
    /// assert_eq!(monitor.told(), None);
    /// ```
    pub fn told(&self) -> Option<Told> {
        self.told
    }

    /// Begins anew under an order: the core alone, at the top.
    ///
    /// A granted start sets all tallies to zero, and then counts itself. A refused
    /// one keeps bytes, words and order, and raises the refused count of tally 0.
    ///
    /// ```
    /// use tupehiwo::{Monitor, Order, Tally, Verdict};
    ///
    /// let mut monitor = Monitor::new();
    /// assert_eq!(monitor.mark(0), Verdict::State);
    /// assert_eq!(monitor.mark(0), Verdict::State);
    /// assert_eq!(monitor.tally(0), Some(Tally { granted: 0, slipped: 0, refused: 2 }));
    ///
    /// assert_eq!(monitor.start(Order::new(1, [3, 2])), Verdict::Granted);
    /// assert_eq!(monitor.tally(0), Some(Tally { granted: 1, slipped: 0, refused: 0 }));
    ///
    /// assert_eq!(monitor.start(Order::new(2, [3, 2])), Verdict::Order);
    /// assert_eq!(monitor.mark(0), Verdict::Granted);
    /// assert_eq!(monitor.tally(0), Some(Tally { granted: 2, slipped: 0, refused: 1 }));
    /// ```
    pub fn start(&mut self, order: Order) -> Verdict {
        let verdict = self.perform(order, code::START, []).verdict;
        if verdict == Verdict::Granted {
            self.order = order;
        }
        verdict
    }

    /// Begins anew with a [`layout`](crate::layout) under an order: the core, and
    /// the tasks and objects of the text.
    ///
    /// Refused with `Order` it keeps bytes, words and the order of before. Refused
    /// otherwise, for its text or with the verdict of the first call that is
    /// refused, it leaves the core alone, as a start does, under the new order.
    ///
    /// It counts once, on tally 0. A granted load first sets all tallies to zero; a
    /// refused one only raises the refused count of tally 0.
    ///
    /// ```
    /// use tupehiwo::{Monitor, Order, Tally, Verdict};
    ///
    /// let order = Order::new(1, [3, 2]);
    /// let mut monitor = Monitor::new();
    ///
    /// // A drawer of checked images, with one in it, and a task run from that one.
    /// let text = b"(object 10 driver 0 level 1\n\
    ///              (object 11 driver 0 level 1))\n\
    ///              (task 1 image 11 level 1 reads 0)\n";
    /// assert_eq!(monitor.load(order, text), Verdict::Granted);
    /// assert_eq!(monitor.mark(1), Verdict::Granted);
    /// assert_eq!(monitor.tally(0), Some(Tally { granted: 2, slipped: 0, refused: 0 }));
    ///
    /// // There is no object 12 that a task could be run from.
    /// let text = b"(task 1 image 12 level 1 reads 0)\n";
    /// assert_eq!(monitor.load(order, text), Verdict::Number);
    /// assert_eq!(monitor.tally(0), Some(Tally { granted: 2, slipped: 0, refused: 1 }));
    /// assert_eq!(monitor.mark(1), Verdict::Number);
    /// assert_eq!(monitor.mark(0), Verdict::Granted);
    /// ```
    pub fn load(&mut self, order: Order, text: &[u8]) -> Verdict {
        let (bytes, words) = (&mut self.bytes[..], &mut self.words[..]);
        let raw = ffi::load(bytes, words, &mut self.tallies[..], order, text);
        self.told = Told::from_number(raw.told);
        let verdict = verdict(raw.verdict);
        if !matches!(verdict, Verdict::State | Verdict::Order) {
            self.order = order;
        }
        verdict
    }

    /// A task reads an object through the object's driver.
    ///
    /// An honest driver lets a task read only an object that the task's level, or
    /// its read level, is at or below; unrelated levels fail. Where nothing else
    /// fails, a marked driver lets the read slip:
    ///
    /// ```
    /// use tupehiwo::{Monitor, Order, Verdict};
    ///
    /// // A diamond of levels: 1 and 2 are unrelated.
    /// let mut monitor = Monitor::new();
    /// assert_eq!(monitor.start(Order::new(3, [15, 10, 12, 8])), Verdict::Granted);
    /// assert_eq!(monitor.create_root(0, 0, 10, 3), Verdict::Granted); // an image
    /// assert_eq!(monitor.execute(0, 10, 1, 1, 1), Verdict::Granted); // a task at 1
    /// assert_eq!(monitor.execute(0, 10, 2, 3, 3), Verdict::Granted); // a driver at 3
    /// assert_eq!(monitor.create_root(0, 2, 20, 2), Verdict::Granted); // an object at 2
    ///
    /// assert_eq!(monitor.read(1, 2, 20), Verdict::Rule);
    /// assert_eq!(monitor.mark(2), Verdict::Granted);
    /// assert_eq!(monitor.read(1, 2, 20), Verdict::Slipped);
    /// ```
    pub fn read(&mut self, task: u16, driver: u16, object: u16) -> Verdict {
        self.ask(code::READ, [task, driver, object])
    }

    /// A task writes an object through the object's driver.
    pub fn write(&mut self, task: u16, driver: u16, object: u16) -> Verdict {
        self.ask(code::WRITE, [task, driver, object])
    }

    /// Makes a new task from an image object.
    pub fn execute(
        &mut self,
        creator: u16,
        image: u16,
        new: u16,
        level: u16,
        read_level: u16,
    ) -> Verdict {
        self.ask(code::EXECUTE, [creator, image, new, level, read_level])
    }

    /// Makes a new object in a container that creator and driver hold write access to.
    pub fn create(
        &mut self,
        creator: u16,
        driver: u16,
        new: u16,
        container: u16,
        level: u16,
    ) -> Verdict {
        self.ask(code::CREATE, [creator, driver, new, container, level])
    }

    /// Makes a new object in no container.
    pub fn create_root(&mut self, creator: u16, driver: u16, new: u16, level: u16) -> Verdict {
        self.ask(code::CREATE_ROOT, [creator, driver, new, level])
    }

    /// Moves an object from one container to another that does not lie anywhere inside it.
    pub fn move_object(
        &mut self,
        task: u16,
        driver: u16,
        object: u16,
        from: u16,
        to: u16,
    ) -> Verdict {
        self.ask(code::MOVE, [task, driver, object, from, to])
    }

    /// Deletes an empty object from its container, with its flows and accesses.
    ///
    /// The trail past it is kept: each thing that fed the object, and its driver, is
    /// recorded as feeding each thing that the object fed, but none as feeding itself.
    /// A marked object is not deleted while it feeds an unmarked thing (`Feeding`); a spread
    /// marks that thing, and then the object may go.
    ///
    /// ```
    /// use tupehiwo::{Monitor, Order, Verdict};
    ///
    /// let mut monitor = Monitor::new();
    /// assert_eq!(monitor.start(Order::new(0, [1])), Verdict::Granted);
    /// assert_eq!(monitor.create_root(0, 0, 10, 0), Verdict::Granted);
    /// assert_eq!(monitor.execute(0, 10, 1, 0, 0), Verdict::Granted);
    /// assert_eq!(monitor.execute(0, 10, 2, 0, 0), Verdict::Granted);
    /// assert_eq!(monitor.create(0, 0, 11, 10, 0), Verdict::Held);
    /// assert_eq!(monitor.write(0, 0, 10), Verdict::Granted);
    /// assert_eq!(monitor.create(0, 0, 11, 10, 0), Verdict::Granted);
    ///
    /// // Task 1 writes the object, task 2 reads it, and it is deleted.
    /// assert_eq!(monitor.write(1, 0, 11), Verdict::Granted);
    /// assert_eq!(monitor.read(2, 0, 11), Verdict::Granted);
    /// assert_eq!(monitor.delete(0, 0, 11, 10), Verdict::Granted);
    /// assert_eq!(monitor.delete(0, 0, 11, 10), Verdict::Number);
    ///
    /// // Task 1 was captured: the trail leads to task 2 all the same.
    /// assert_eq!(monitor.mark(1), Verdict::Granted);
    /// assert_eq!(monitor.spread().rounds, 1);
    /// assert_eq!(monitor.report().marked().collect::<Vec<_>>(), [1, 2]);
    /// ```
    pub fn delete(&mut self, task: u16, driver: u16, object: u16, container: u16) -> Verdict {
        self.ask(code::DELETE, [task, driver, object, container])
    }

    /// A task calls another and takes its answer.
    pub fn call(&mut self, caller: u16, callee: u16) -> Verdict {
        self.ask(code::CALL, [caller, callee])
    }

    /// A task invokes another without an answer.
    pub fn invoke(&mut self, invoker: u16, invokee: u16) -> Verdict {
        self.ask(code::INVOKE, [invoker, invokee])
    }

    /// Task `z`, which reads object `x` and feeds `y`, passes `x` on: flow `x` to `y`.
    pub fn pass(&mut self, z: u16, x: u16, y: u16) -> Verdict {
        self.ask(code::PASS, [z, x, y])
    }

    /// Task `x`, which feeds object `z`, reaches the task `y` that reads it: flow `x` to `y`.
    pub fn post(&mut self, x: u16, z: u16, y: u16) -> Verdict {
        self.ask(code::POST, [x, z, y])
    }

    /// Task `x`, which feeds task `z`, reaches what `z` feeds: flow `x` to `y`.
    pub fn find(&mut self, x: u16, z: u16, y: u16) -> Verdict {
        self.ask(code::FIND, [x, z, y])
    }

    /// Marks a task from outside, and its objects.
    pub fn mark(&mut self, task: u16) -> Verdict {
        self.ask(code::MARK, [task])
    }

    /// Marks one thing that a marked one feeds, and its objects if it is a task.
    pub fn step(&mut self, x: u16) -> Verdict {
        self.ask(code::STEP, [x])
    }

    /// Marks all that the marked things reach, also by way of objects that were deleted,
    /// and tells in how many rounds.
    pub fn spread(&mut self) -> Answer {
        self.perform(self.order, code::SPREAD, [])
    }

    /// Tells which numbers are marked. It counts on no tally.
    pub fn report(&self) -> Report {
        let raw = ffi::report(&self.bytes[..], &self.words[..], self.order);
        Report::new(raw, verdict(raw.verdict))
    }

    fn ask<const N: usize>(&mut self, code: u16, arguments: [u16; N]) -> Verdict {
        self.perform(self.order, code, arguments).verdict
    }

    fn perform<const N: usize>(&mut self, order: Order, code: u16, arguments: [u16; N]) -> Answer {
        let mut all = [0; 5];
        all[..N].copy_from_slice(&arguments);
        let [a, b, c, d, e] = all;
        let request = Request { code, a, b, c, d, e };
        let (bytes, words) = (&mut self.bytes[..], &mut self.words[..]);
        let raw = ffi::perform(bytes, words, &mut self.tallies[..], order, request);
        self.told = Told::from_number(raw.told);
        Answer { verdict: verdict(raw.verdict), rounds: raw.rounds }
    }
}

pub(crate) fn verdict(number: u8) -> Verdict {
    Verdict::from_number(number).expect("the library answers with a verdict of the table")
}
