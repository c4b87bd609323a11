use std::iter::FusedIterator;

use crate::ffi;
use crate::verdict::Verdict;

/// What [`Monitor::report`](crate::Monitor::report) tells: the marked numbers.
#[derive(Clone, Copy, Debug, PartialEq, Eq)]
pub struct Report {
    raw: ffi::Report,
    verdict: Verdict,
}

impl Report {
    pub(crate) fn new(raw: ffi::Report, verdict: Verdict) -> Report {
        Report { raw, verdict }
    }

    /// `Granted`; or `State` or `Order`, and then no number is marked.
    pub fn verdict(&self) -> Verdict {
        self.verdict
    }

    /// A bit for each marked number, number 0 in the lowest bit of the first word.
    pub fn words(&self) -> [u64; 2] {
        self.raw.words
    }

    /// How many numbers are marked.
    pub fn ones(&self) -> u32 {
        self.raw.ones
    }

    /// The marked numbers, rising.
    ///
    /// ```
    /// use tupehiwo::{Monitor, Order, Verdict};
    ///
    /// let mut monitor = Monitor::new();
    /// assert_eq!(monitor.start(Order::new(0, [1])), Verdict::Granted);
    /// assert_eq!(monitor.create_root(0, 0, 127, 0), Verdict::Granted);
    /// assert_eq!(monitor.report().marked().next(), None);
    ///
    /// assert_eq!(monitor.mark(0), Verdict::Granted);
    /// let report = monitor.report();
    /// assert_eq!(report.ones(), 2);
    /// assert!(report.marked().eq([0, 127]));
    /// ```
    pub fn marked(&self) -> Marked {
        Marked { report: self.raw, from: 0 }
    }
}

/// The marked numbers of a [`Report`], rising.
#[derive(Clone, Debug)]
pub struct Marked {
    report: ffi::Report,
    from: u16,
}

impl Iterator for Marked {
    type Item = u16;

    fn next(&mut self) -> Option<u16> {
        let number = ffi::tupehiwo_next_marked(self.report, self.from);
        self.from = number + 1;
        (number < ffi::THINGS).then_some(number)
    }
}

impl FusedIterator for Marked {}
