use std::fmt;

/// What a call answers. The refusals stand in the order in which they are
/// tested, but for `Form` and `Deep`, which come right after `Order`: the first
/// that applies is given.
#[must_use = "a refused call has done nothing"]
#[derive(Clone, Copy, Debug, PartialEq, Eq, PartialOrd, Ord, Hash)]
#[repr(u8)]
pub enum Verdict {
    /// Done.
    Granted = 0,
    /// Done, though only a marked driver lets it through.
    Slipped = 1,
    /// The memory is not sound, as before the first granted start.
    State = 2,
    /// The order is not a partial order with its top.
    Order = 3,
    /// A number is 128 or more, or one that is not new is free or of the wrong kind.
    Number = 4,
    /// A new number is in use.
    Taken = 5,
    /// The driver named is not the object's.
    Driver = 6,
    /// An object is not in the container named, things that must differ are equal, or a move
    /// would put an object inside itself.
    Place = 7,
    /// An access or flow that is needed is not recorded.
    Held = 8,
    /// A level given is not below the count.
    Scale = 9,
    /// The path test of read or call fails.
    Path = 10,
    /// Another level test fails.
    Rule = 11,
    /// A container to be deleted holds an object.
    Filled = 12,
    /// A step has nothing to mark.
    Still = 13,
    /// The text is no layout's, or too long.
    Form = 14,
    /// An object lies at a ninth level.
    Deep = 15,
    /// An object to be deleted is marked and feeds an unmarked thing.
    Feeding = 16,
}

impl Verdict {
    /// All verdicts, each at the place of its number.
    pub const ALL: [Verdict; 17] = [
        Verdict::Granted,
        Verdict::Slipped,
        Verdict::State,
        Verdict::Order,
        Verdict::Number,
        Verdict::Taken,
        Verdict::Driver,
        Verdict::Place,
        Verdict::Held,
        Verdict::Scale,
        Verdict::Path,
        Verdict::Rule,
        Verdict::Filled,
        Verdict::Still,
        Verdict::Form,
        Verdict::Deep,
        Verdict::Feeding,
    ];

    /// The verdict of a number; `None` for 17 and more.
    pub fn from_number(number: u8) -> Option<Verdict> {
        Verdict::ALL.get(usize::from(number)).copied()
    }

    /// Whether the call was performed: granted or slipped.
    pub fn is_done(self) -> bool {
        matches!(self, Verdict::Granted | Verdict::Slipped)
    }

    /// The verdict's word, as `granted`.
    pub fn word(self) -> &'static str {
        match self {
            Verdict::Granted => "granted",
            Verdict::Slipped => "slipped",
            Verdict::State => "state",
            Verdict::Order => "order",
            Verdict::Number => "number",
            Verdict::Taken => "taken",
            Verdict::Driver => "driver",
            Verdict::Place => "place",
            Verdict::Held => "held",
            Verdict::Scale => "scale",
            Verdict::Path => "path",
            Verdict::Rule => "rule",
            Verdict::Filled => "filled",
            Verdict::Still => "still",
            Verdict::Form => "form",
            Verdict::Deep => "deep",
            Verdict::Feeding => "feeding",
        }
    }
}

impl fmt::Display for Verdict {
    fn fmt(&self, f: &mut fmt::Formatter<'_>) -> fmt::Result {
        f.pad(self.word())
    }
}
