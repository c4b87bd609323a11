//! A safe face of the integrity monitor.
//!
//! The monitor follows *tasks* and *objects*. Each has a *level*. The levels are
//! ordered, though some may be unrelated: while nothing is marked, a thing is fed
//! only by what its level is at or below. Every object has a task as its
//! *driver*, through which it is read and written. The monitor records accesses
//! and *flows*, and refuses what the levels forbid. When a task turns out to be
//! captured it is *marked* from outside, and a *spread* then marks all that it
//! may have tainted, also by way of objects that were deleted.
//!
//! Make a state, mark, spread, read the list:
//!
//! ```
//! use tupehiwo::{Monitor, Order, Verdict};
//!
//! // Two levels: 0 is at or below 1, and 1 is the top.
//! let mut monitor = Monitor::new();
//! assert_eq!(monitor.start(Order::new(1, [3, 2])), Verdict::Granted);
//!
//! // The core (task 0) makes a table at the top and an image at level 0,
//! // and runs two tasks from the image.
//! assert_eq!(monitor.create_root(0, 0, 10, 1), Verdict::Granted);
//! assert_eq!(monitor.create_root(0, 0, 11, 0), Verdict::Granted);
//! assert_eq!(monitor.execute(0, 11, 1, 0, 0), Verdict::Granted);
//! assert_eq!(monitor.execute(0, 11, 2, 0, 0), Verdict::Granted);
//!
//! // Task 1 feeds task 2. It may not write the table, whose level is not at or
//! // below its own.
//! assert_eq!(monitor.invoke(1, 2), Verdict::Granted);
//! assert_eq!(monitor.write(1, 0, 10), Verdict::Rule);
//!
//! // Whom to ring: each call counts on the task that asked for it.
//! let (task, tally) = monitor.refused().next().unwrap();
//! assert_eq!((task, tally.granted, tally.refused), (1, 1, 1));
//!
//! // Task 1 was captured: who may be tainted?
//! assert_eq!(monitor.mark(1), Verdict::Granted);
//! assert_eq!(monitor.spread().rounds, 1);
//! assert_eq!(monitor.report().marked().collect::<Vec<_>>(), [1, 2]);
//! ```
//!
//! What an instrument has when it is switched on can stand in a file: see
//! [`layout`] and [`Monitor::load`].

pub mod ffi;
pub mod layout;
mod monitor;
mod report;
mod told;
mod verdict;

pub use ffi::{Order, Tally};
pub use monitor::{Answer, BYTES, Monitor, TALLIES, WORDS};
pub use report::{Marked, Report};
pub use told::Told;
pub use verdict::Verdict;

impl Order {
    /// The order with these rows and this top; its count is the number of rows.
    ///
    /// Whether it is an order at all, a start will say:
    ///
    /// ```
    /// use tupehiwo::{Monitor, Order, Verdict};
    ///
    /// // A diamond: 0 lowest, 1 and 2 unrelated, 3 the top.
    /// let diamond = Order::new(3, [0b1111, 0b1010, 0b1100, 0b1000]);
    /// assert_eq!(Monitor::new().start(diamond), Verdict::Granted);
    ///
    /// // Two levels, each at or below the other.
    /// let circle = Order::new(1, [0b11, 0b11]);
    /// assert_eq!(Monitor::new().start(circle), Verdict::Order);
    /// ```
    pub const fn new<const N: usize>(top: u16, rows: [u16; N]) -> Order {
        const { assert!(N <= 16, "an order has at most sixteen rows") };
        let mut all = [0; 16];
        let mut i = 0;
        while i < N {
            all[i] = rows[i];
            i += 1;
        }
        Order { rows: all, count: N as u16, top }
    }
}
