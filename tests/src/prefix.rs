//! Where a text stops being the beginning of a layout's: an automaton that takes
//! one byte after the other and builds nothing. Every state of it can be continued
//! to the text of a layout.

use crate::model::{LAYOUT_BYTES, LAYOUT_DEPTH, Verdict};

/// The forms, with N for a number. What follows an object's level is not its own.
const OBJECT: &[u8] = b"(object N driver N level N";
const TASK: &[u8] = b"(task N image N level N reads N)";

/// Where in the grammar a text has come to.
#[derive(Clone, Copy, Debug, PartialEq, Eq)]
enum Spot {
    /// At the beginning of a line.
    Line,
    /// Behind the opening bracket of a form.
    Opened,
    /// In a form, this many of its bytes being read and this many digits.
    Within { form: &'static [u8], at: usize, digits: usize, zero: bool },
    /// Behind the closing bracket of a form.
    Closed,
}

#[derive(Clone, Copy, Debug)]
struct Automaton {
    spot: Spot,
    /// How many objects are open around the spot.
    open: usize,
}

impl Automaton {
    const BEGIN: Automaton = Automaton { spot: Spot::Line, open: 0 };

    fn is_whole(&self) -> bool {
        self.spot == Spot::Line && self.open == 0
    }

    /// After one byte more; `None` if no layout has it here.
    fn step(self, byte: u8) -> Option<Automaton> {
        let begun = |form| Spot::Within { form, at: 2, digits: 0, zero: false };
        let to = |spot| Some(Automaton { spot, ..self });
        match (self.spot, byte) {
            (Spot::Line, b'(') => to(Spot::Opened),
            (Spot::Opened, b'o') => to(begun(OBJECT)),
            (Spot::Opened, b't') if self.open == 0 => to(begun(TASK)),
            (Spot::Closed, b')') if self.open > 0 => {
                Some(Automaton { spot: Spot::Closed, open: self.open - 1 })
            }
            (Spot::Closed, b'\n') => to(Spot::Line),
            (Spot::Within { form, at, digits, zero }, _) => {
                self.step_within(byte, form, at, digits, zero)
            }
            _ => None,
        }
    }

    fn step_within(
        self,
        byte: u8,
        form: &'static [u8],
        at: usize,
        digits: usize,
        zero: bool,
    ) -> Option<Automaton> {
        let to = |spot| Some(Automaton { spot, ..self });
        match form.get(at) {
            Some(b'N') if byte.is_ascii_digit() && digits < 3 && !zero => {
                let zero = digits == 0 && byte == b'0';
                to(Spot::Within { form, at, digits: digits + 1, zero })
            }
            Some(b'N') if digits > 0 => self.step_within(byte, form, at + 1, 0, false),
            Some(&next) if next != byte => None,
            Some(b')') => to(Spot::Closed),
            Some(b'N') => None,
            Some(_) => to(Spot::Within { form, at: at + 1, digits: 0, zero: false }),
            // Behind an object's level.
            None if byte == b')' => to(Spot::Closed),
            None if byte == b'\n' => Some(Automaton { spot: Spot::Line, open: self.open + 1 }),
            None => None,
        }
    }

    /// What is expected here, in words.
    fn told(&self, byte: u8) -> &'static str {
        match self.spot {
            Spot::Line if self.open == 0 => FAULTS[0],
            Spot::Line => FAULTS[1],
            Spot::Opened if self.open == 0 => FAULTS[2],
            Spot::Opened => FAULTS[3],
            Spot::Closed if self.open == 0 => FAULTS[4],
            Spot::Closed => FAULTS[5],
            Spot::Within { zero: true, .. } if byte.is_ascii_digit() => FAULTS[6],
            Spot::Within { digits: 3, .. } if byte.is_ascii_digit() => FAULTS[7],
            Spot::Within { digits: 1.., .. } => FAULTS[8],
            Spot::Within { form, at, .. } if form.get(at) == Some(&b'N') => FAULTS[9],
            Spot::Within { .. } => FAULTS[10],
        }
    }
}

/// Where a text can be at fault.
pub const FAULTS: [&str; 13] = [
    "at a form's beginning",
    "at the beginning of an object in another",
    "in a form's second byte",
    "in the second byte of an object in another",
    "behind the last closing bracket",
    "behind a closing bracket of an object in another",
    "a digit behind a zero",
    "a fourth digit",
    "behind a number",
    "no digit",
    "in a word",
    "broken off",
    "too long",
];

/// What a text settles before any call: a verdict, the place of its fault, and for
/// verdict 14 what that is.
#[derive(Clone, Copy, Debug, PartialEq, Eq)]
pub struct Found {
    pub verdict: Verdict,
    pub offset: usize,
    pub fault: Option<&'static str>,
}

pub fn find(text: &[u8]) -> Found {
    let broken = |offset, fault| Found { verdict: Verdict::Form, offset, fault: Some(fault) };
    if text.len() > LAYOUT_BYTES {
        return broken(LAYOUT_BYTES, FAULTS[12]);
    }
    let mut automaton = Automaton::BEGIN;
    let mut ninth = None;
    for (offset, &byte) in text.iter().enumerate() {
        let Some(next) = automaton.step(byte) else {
            return broken(offset, automaton.told(byte));
        };
        if next.spot == Spot::Opened && next.open >= LAYOUT_DEPTH && ninth.is_none() {
            ninth = Some(offset);
        }
        automaton = next;
    }
    match ninth {
        _ if !automaton.is_whole() => broken(text.len(), FAULTS[11]),
        Some(offset) => Found { verdict: Verdict::Deep, offset, fault: None },
        None => Found { verdict: Verdict::Granted, offset: text.len(), fault: None },
    }
}
