use std::fmt;

use crate::ffi::told;

/// The word for the driver of a call, as [`Monitor::told`](crate::Monitor::told) gives it.
#[derive(Clone, Copy, Debug, PartialEq, Eq, Hash)]
pub enum Told {
    /// The call was granted.
    Yes,
    /// The call slipped or was refused.
    No,
}

impl Told {
    /// The word of an answer, if it has one.
    pub(crate) fn from_number(number: u8) -> Option<Told> {
        match number {
            told::NO_WORD => None,
            told::YES => Some(Told::Yes),
            told::NO => Some(Told::No),
            _ => panic!("the library tells yes, no or nothing"),
        }
    }

    /// `yes` or `no`.
    pub fn word(self) -> &'static str {
        match self {
            Told::Yes => "yes",
            Told::No => "no",
        }
    }
}

impl fmt::Display for Told {
    fn fmt(&self, f: &mut fmt::Formatter<'_>) -> fmt::Result {
        f.pad(self.word())
    }
}
