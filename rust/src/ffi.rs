//! The library's own functions and values, as `include/tupehiwo.h` declares
//! them: for those who lend memory of their own.

/// Numbers of things are below this.
pub const THINGS: u16 = 128;

/// The order of the levels, lent by value to each call.
///
/// Bit `j` of row `i` says that level `i` is at or below level `j`.
#[repr(C)]
#[derive(Clone, Copy, Debug, Default, PartialEq, Eq)]
pub struct Order {
    pub rows: [u16; 16],
    pub count: u16,
    pub top: u16,
}

/// How many of the calls that count here were granted, slipped and refused; each count stops
/// at 4,294,967,295.
#[repr(C)]
#[derive(Clone, Copy, Debug, Default, PartialEq, Eq)]
pub struct Tally {
    pub granted: u32,
    pub slipped: u32,
    pub refused: u32,
}

/// A verdict's number, the rounds of a granted spread, and the word for the driver, one of
/// [`told`].
#[repr(C)]
#[derive(Clone, Copy, Debug, PartialEq, Eq)]
pub struct Answer {
    pub verdict: u8,
    pub rounds: u8,
    pub told: u8,
}

/// A call's code, and its arguments; those that the code does not use are ignored.
#[repr(C)]
#[derive(Clone, Copy, Debug, Default, PartialEq, Eq)]
pub struct Request {
    pub code: u16,
    pub a: u16,
    pub b: u16,
    pub c: u16,
    pub d: u16,
    pub e: u16,
}

/// Where a text was left, in bytes from its beginning, and a verdict's number.
#[repr(C)]
#[derive(Clone, Copy, Debug, PartialEq, Eq)]
pub struct Checked {
    pub offset: u32,
    pub verdict: u8,
}

/// A bit for each marked number, how many there are, and a verdict's number.
#[repr(C)]
#[derive(Clone, Copy, Debug, PartialEq, Eq)]
pub struct Report {
    pub words: [u64; 2],
    pub ones: u32,
    pub verdict: u8,
}

unsafe extern "C" {
    /// Performs one call on the memory lent and counts it on one tally, that of the
    /// task that asks ([`Monitor::tally`](crate::Monitor::tally) says which). A list
    /// of another length than 128 is refused with 2, and nothing changes then.
    ///
    /// # Safety
    ///
    /// `bytes`, `words` and `tallies` must be valid for reads and writes of `nbytes`
    /// bytes, `nwords` words and `ntallies` tallies; none may overlap another.
    pub fn tupehiwo_perform(
        bytes: *mut u8,
        nbytes: usize,
        words: *mut u64,
        nwords: usize,
        tallies: *mut Tally,
        ntallies: usize,
        order: Order,
        request: Request,
    ) -> Answer;

    /// Begins anew with the layout of a text, and counts that once, on tally 0. A
    /// list of another length than 128 is refused with 2, and nothing changes then.
    ///
    /// # Safety
    ///
    /// `bytes`, `words` and `tallies` must be valid for reads and writes of `nbytes`
    /// bytes, `nwords` words and `ntallies` tallies, and `text` for reads of `ntext`
    /// bytes; none may overlap another.
    pub fn tupehiwo_load(
        bytes: *mut u8,
        nbytes: usize,
        words: *mut u64,
        nwords: usize,
        tallies: *mut Tally,
        ntallies: usize,
        order: Order,
        text: *const u8,
        ntext: usize,
    ) -> Answer;

    /// Tells whether a text is that of a layout, and where it is not.
    ///
    /// # Safety
    ///
    /// `text` must be valid for reads of `ntext` bytes.
    pub fn tupehiwo_layout(text: *const u8, ntext: usize) -> Checked;

    /// Reports the marked numbers.
    ///
    /// # Safety
    ///
    /// `bytes` and `words` must be valid for reads of `nbytes` bytes and
    /// `nwords` words.
    pub fn tupehiwo_report(
        bytes: *const u8,
        nbytes: usize,
        words: *const u64,
        nwords: usize,
        order: Order,
    ) -> Report;

    /// The lowest marked number that is `from` or more; 128 if there is none.
    pub safe fn tupehiwo_next_marked(report: Report, from: u16) -> u16;
}

/// [`tupehiwo_perform`] over slices of any length.
pub fn perform(
    bytes: &mut [u8],
    words: &mut [u64],
    tallies: &mut [Tally],
    order: Order,
    request: Request,
) -> Answer {
    // SAFETY: the pointers are those of slices lent for change, which never
    // overlap, with the slices' own lengths.
    unsafe {
        tupehiwo_perform(
            bytes.as_mut_ptr(),
            bytes.len(),
            words.as_mut_ptr(),
            words.len(),
            tallies.as_mut_ptr(),
            tallies.len(),
            order,
            request,
        )
    }
}

/// [`tupehiwo_load`] over slices of any length.
pub fn load(
    bytes: &mut [u8],
    words: &mut [u64],
    tallies: &mut [Tally],
    order: Order,
    text: &[u8],
) -> Answer {
    // SAFETY: the pointers are those of slices lent for change, which never
    // overlap, and of a slice lent to be read, with the slices' own lengths.
    unsafe {
        tupehiwo_load(
            bytes.as_mut_ptr(),
            bytes.len(),
            words.as_mut_ptr(),
            words.len(),
            tallies.as_mut_ptr(),
            tallies.len(),
            order,
            text.as_ptr(),
            text.len(),
        )
    }
}

/// [`tupehiwo_layout`] over a slice of any length.
pub fn layout(text: &[u8]) -> Checked {
    // SAFETY: the pointer is that of a slice, with its own length.
    unsafe { tupehiwo_layout(text.as_ptr(), text.len()) }
}

/// [`tupehiwo_report`] over slices of any length.
pub fn report(bytes: &[u8], words: &[u64], order: Order) -> Report {
    // SAFETY: the pointers are those of slices, with the slices' own lengths.
    unsafe { tupehiwo_report(bytes.as_ptr(), bytes.len(), words.as_ptr(), words.len(), order) }
}

/// What the driver is told of a call; [`Monitor::told`](crate::Monitor::told) says of which
/// calls, and what it does not show.
pub mod told {
    /// The call has none.
    pub const NO_WORD: u8 = 0;
    /// It was granted.
    pub const YES: u8 = 1;
    /// It slipped or was refused.
    pub const NO: u8 = 2;
}

/// The code of each call; its arguments fill `a`, `b`, `c`, `d`, `e` in the
/// order named beside it.
pub mod code {
    pub const START: u16 = 0;
    /// task, driver, object
    pub const READ: u16 = 1;
    /// task, driver, object
    pub const WRITE: u16 = 2;
    /// creator, image, new, level, read level
    pub const EXECUTE: u16 = 3;
    /// creator, driver, new, container, level
    pub const CREATE: u16 = 4;
    /// creator, driver, new, level
    pub const CREATE_ROOT: u16 = 5;
    /// task, driver, object, from, to
    pub const MOVE: u16 = 6;
    /// task, driver, object, container
    pub const DELETE: u16 = 7;
    /// caller, callee
    pub const CALL: u16 = 8;
    /// invoker, invokee
    pub const INVOKE: u16 = 9;
    /// z, x, y
    pub const PASS: u16 = 10;
    /// x, z, y
    pub const POST: u16 = 11;
    /// x, z, y
    pub const FIND: u16 = 12;
    /// task
    pub const MARK: u16 = 13;
    /// x
    pub const STEP: u16 = 14;
    pub const SPREAD: u16 = 15;
}
