//! Power-up layouts: the tasks and objects of a fresh instrument, as a text.
//!
//! ```text
//! (object 10 driver 0 level 3
//! (object 11 driver 0 level 2))
//! (task 1 image 11 level 2 reads 0)
//! ```
//!
//! A form stands on a line: an object with its driver and level, or a task with the
//! object that it is run from, its level and its read level. What lies in an object
//! stands on the lines after it, before its closing bracket; only objects lie in
//! objects, up to eight deep. Closing brackets stand at a line's end, one space
//! parts words, a line feed ends each line, the last too, and nothing else stands
//! anywhere: no tab, no empty line, no remark. A number has at most three digits
//! and no leading zero. A text has at most 16 KiB and may be empty. The driver or
//! image that a form names has to stand before it; the core, task 0, is there
//! already.
//!
//! [`Monitor::load`](crate::Monitor::load) begins anew with a layout; [`check`] says
//! where a text is no layout's.

use std::error::Error;
use std::fmt;

use crate::ffi;
use crate::monitor::verdict;
use crate::verdict::Verdict;

/// The longest text of a layout, in bytes.
pub const BYTES: usize = 16384;

/// How deep objects may lie in objects, a root object being the first level.
pub const DEPTH: usize = 8;

/// A text that is no layout's, and where. Lines and columns are counted from 1, a
/// column for each byte.
#[derive(Clone, Copy, Debug, PartialEq, Eq)]
pub struct Fault {
    /// `Form` or `Deep`, as a load answers.
    pub verdict: Verdict,
    /// In bytes from the text's beginning: of the first byte that no layout has
    /// there (the text's length, where it breaks off), of the first byte of a text
    /// that is too much, or of the first opening bracket of a ninth level.
    pub offset: usize,
    pub line: usize,
    pub column: usize,
}

/// Whether a text is that of a layout, and not too deep. A load may be refused all
/// the same, by the first of its calls that is.
///
/// ```
/// use tupehiwo::Verdict;
/// use tupehiwo::layout::check;
///
/// let text = b"(object 10 driver 0 level 1\n\
///              (object 11 driver 0 level 1))\n\
///              (task 1 image 11 level 1 reads 0)\n";
/// assert_eq!(check(text), Ok(()));
/// assert_eq!(check(b""), Ok(()));
///
/// // A second space in line 2.
/// let fault = check(b"(object 10 driver 0 level 1\n(object 11  driver 0 level 1))\n").unwrap_err();
/// assert_eq!(fault.verdict, Verdict::Form);
/// assert_eq!((fault.offset, fault.line, fault.column), (39, 2, 12));
/// assert_eq!(fault.to_string(), "form, line 2, column 12");
/// ```
pub fn check(text: &[u8]) -> Result<(), Fault> {
    let checked = ffi::layout(text);
    match verdict(checked.verdict) {
        Verdict::Granted => Ok(()),
        refusal => Err(Fault::new(refusal, text, checked.offset as usize)),
    }
}

impl Fault {
    fn new(verdict: Verdict, text: &[u8], offset: usize) -> Fault {
        let before = &text[..offset];
        let line = 1 + before.iter().filter(|&&byte| byte == b'\n').count();
        let column = 1 + before.iter().rev().take_while(|&&byte| byte != b'\n').count();
        Fault { verdict, offset, line, column }
    }
}

impl fmt::Display for Fault {
    fn fmt(&self, f: &mut fmt::Formatter<'_>) -> fmt::Result {
        write!(f, "{}, line {}, column {}", self.verdict, self.line, self.column)
    }
}

impl Error for Fault {}
