//! The decision table of the second paper, worked out from the rules of the first: what the
//! level tests of eight operations come to in each setting of their yes-or-no facts. And the
//! page that shows such a table, docs/DECISION-TABLE.md: it is given the numbers.

use std::collections::BTreeSet;
use std::fmt::Write;

use crate::model::Verdict;
use crate::table::VERDICTS;

/// Settings of six facts.
pub const SETTINGS: usize = 64;

/// Rows and columns of a table: its column says which of the facts 0, 1, 2 hold, its row
/// which of the others.
pub const SIDE: usize = 8;

/// Whether each fact holds, fact 0 first. Those past an operation's own are ignored.
pub type Facts = [bool; 6];

/// The setting of such facts.
pub fn setting_of(facts: Facts) -> usize {
    facts.iter().rev().fold(0, |setting, &holds| 2 * setting + usize::from(holds))
}

/// The facts of a setting.
pub fn facts_of(setting: usize) -> Facts {
    std::array::from_fn(|fact| setting >> fact & 1 == 1)
}

/// What the level tests come to.
#[derive(Clone, Copy, Debug, PartialEq, Eq)]
pub struct Entry {
    pub verdict: Verdict,
    /// Whether the event's first flow is recorded, and its second.
    pub flows: [bool; 2],
}

impl Entry {
    fn refused(verdict: Verdict) -> Entry {
        Entry { verdict, flows: [false; 2] }
    }

    /// Slipped where what only an honest driver asks for does not hold.
    fn done(honest: bool, flows: [bool; 2]) -> Entry {
        Entry { verdict: if honest { Verdict::Granted } else { Verdict::Slipped }, flows }
    }

    /// As the table has it.
    pub fn number(self) -> u8 {
        let [first, second] = self.flows.map(u8::from);
        self.verdict as u8 + 16 * first + 32 * second
    }

    /// With the test apart: an object that is not at or below its driver gives 11, "unless
    /// the lookup gives 10".
    pub fn apart(self, below: bool) -> Entry {
        if below || self.verdict == Verdict::Path { self } else { Entry::refused(Verdict::Rule) }
    }
}

/// A fact in signs and in words.
pub type Fact = (&'static str, &'static str);

/// From and to.
pub type Flow = (&'static str, &'static str);

pub struct Operation {
    pub name: &'static str,
    /// What is done, and by whom.
    pub deed: &'static str,
    pub facts: &'static [Fact],
    /// The first, and the second if there is one.
    pub flows: (Flow, Option<Flow>),
    /// Whether the object has to be at or below its driver besides.
    pub apart: bool,
    decide: fn(Facts) -> Entry,
}

impl Operation {
    pub fn entry(&self, setting: usize) -> Entry {
        (self.decide)(facts_of(setting))
    }

    /// As the table has them, row by row.
    pub fn numbers(&self) -> [[u8; SIDE]; SIDE] {
        let number = |row, column| self.entry(SIDE * row + column).number();
        std::array::from_fn(|row| std::array::from_fn(|column| number(row, column)))
    }
}

const D_MARKED: Fact = ("d marked", "the driver is marked");
const O_E: Fact = ("L(o) ≤ L(e)", "the object's level is at or below the task's");

const READ: Operation = Operation {
    name: "read",
    deed: "Task e reads object o through its driver d.",
    facts: &[
        ("L(e) ≤ L(d)", "the task's level is at or below the driver's"),
        ("R(e) ≤ L(d)", "the task's read level is at or below the driver's level"),
        ("L(e) ≤ L(o)", "the task's level is at or below the object's"),
        ("R(e) ≤ L(o)", "the task's read level is at or below the object's level"),
        D_MARKED,
        ("e marked", "the task is marked"),
    ],
    flows: (("o", "e"), Some(("d", "e"))),
    apart: true,
    decide: read,
};

const WRITE: Operation = Operation {
    name: "write",
    deed: "Task e writes object o through its driver d.",
    facts: &[O_E, D_MARKED],
    flows: (("e", "o"), Some(("e", "d"))),
    apart: true,
    decide: write,
};

const MOVE: Operation = Operation {
    name: "move",
    deed: "Task e moves object o, whose driver is d, into the container `to`.",
    facts: &[
        O_E,
        ("L(o) ≤ L(to)", "the object's level is at or below the new container's"),
        D_MARKED,
    ],
    flows: (("e", "o"), Some(("e", "d"))),
    apart: true,
    decide: move_object,
};

const DELETE: Operation = Operation {
    name: "delete",
    deed: "Task e deletes object o, whose driver is d.",
    facts: &[O_E, D_MARKED],
    flows: (("e", "d"), None),
    apart: true,
    decide: delete,
};

const CALL: Operation = Operation {
    name: "call",
    deed: "Task a calls task b.",
    facts: &[
        ("L(a) ≤ L(b)", "the caller's level is at or below the callee's"),
        ("R(a) ≤ L(b)", "the caller's read level is at or below the callee's level"),
        ("a marked", "the caller is marked"),
        ("b marked", "the callee is marked"),
    ],
    flows: (("b", "a"), Some(("a", "b"))),
    apart: false,
    decide: call,
};

const INVOKE: Operation = Operation {
    name: "invoke",
    deed: "Task a invokes task b.",
    facts: &[
        ("L(b) ≤ L(a)", "the invokee's level is at or below the invoker's"),
        ("a marked", "the invoker is marked"),
    ],
    flows: (("a", "b"), Some(("b", "a"))),
    apart: false,
    decide: invoke,
};

const PASS: Operation = Operation {
    name: "pass",
    deed: "Task z passes object x, whose driver is dx, on to y.",
    facts: &[
        ("L(z) ≤ L(x)", "the task's level is at or below the object's"),
        ("R(z) ≤ L(x)", "the task's read level is at or below the object's level"),
        ("L(z) ≤ L(dx)", "the task's level is at or below the driver's"),
        ("R(z) ≤ L(dx)", "the task's read level is at or below the driver's level"),
        ("z marked", "the task is marked"),
    ],
    flows: (("x", "y"), None),
    apart: false,
    decide: relay,
};

const POST: Operation = Operation {
    name: "post",
    deed: "Task x posts to task y by object z, whose driver is dz.",
    facts: &[
        ("L(y) ≤ L(z)", "the reading task's level is at or below the object's"),
        ("R(y) ≤ L(z)", "the reading task's read level is at or below the object's level"),
        ("L(y) ≤ L(dz)", "the reading task's level is at or below the driver's"),
        ("R(y) ≤ L(dz)", "the reading task's read level is at or below the driver's level"),
        ("y marked", "the reading task is marked"),
    ],
    flows: (("x", "y"), None),
    apart: false,
    decide: relay,
};

/// In the paper's order.
pub const OPERATIONS: [Operation; 8] = [READ, WRITE, MOVE, DELETE, CALL, INVOKE, PASS, POST];

/// The numbers of a table: of each operation, one for each setting.
pub type Numbers = [[u8; SETTINGS]; OPERATIONS.len()];

// ------------------------------------------------------------------- the rules

fn read(
    [level_driver, read_driver, level_object, read_object, driver_marked, task_marked]: Facts,
) -> Entry {
    let honest = level_object || read_object;
    if !level_driver && !read_driver {
        Entry::refused(Verdict::Path)
    } else if driver_marked {
        let both = task_marked || level_driver;
        Entry::done(honest, [both; 2])
    } else if honest {
        let first = task_marked || (level_object && level_driver);
        Entry::done(true, [first, false])
    } else {
        Entry::refused(Verdict::Rule)
    }
}

fn write([object_task, driver_marked, ..]: Facts) -> Entry {
    if object_task || driver_marked {
        Entry::done(object_task, [true, driver_marked])
    } else {
        Entry::refused(Verdict::Rule)
    }
}

fn move_object([object_task, object_to, driver_marked, ..]: Facts) -> Entry {
    if object_to && (object_task || driver_marked) {
        Entry::done(object_task, [driver_marked; 2])
    } else {
        Entry::refused(Verdict::Rule)
    }
}

/// A marked driver does not escape this rule.
fn delete([object_task, driver_marked, ..]: Facts) -> Entry {
    if object_task {
        Entry::done(true, [driver_marked, false])
    } else {
        Entry::refused(Verdict::Rule)
    }
}

fn call([level_callee, read_callee, caller_marked, callee_marked, ..]: Facts) -> Entry {
    if level_callee || read_callee {
        let first = caller_marked || level_callee;
        Entry::done(true, [first, first && callee_marked])
    } else {
        Entry::refused(Verdict::Path)
    }
}

fn invoke([invokee_invoker, invoker_marked, ..]: Facts) -> Entry {
    if invokee_invoker {
        Entry::done(true, [true, invoker_marked])
    } else {
        Entry::refused(Verdict::Rule)
    }
}

/// Of pass and of post: the task is the one that reads.
fn relay([level_object, read_object, level_driver, read_driver, marked, ..]: Facts) -> Entry {
    let risky = (!level_object && read_object) || (!level_driver && read_driver);
    if risky && !marked { Entry::refused(Verdict::Rule) } else { Entry::done(true, [true, false]) }
}

// -------------------------------------------------------------------- the page

const BEGINNING: &str = "\
# The decision table

For eight operations a call looks up in a table what the level tests come to. The table is one \
constant of 512 numbers, `ENTRIES` in `crates/table/src/lib.rt`, and that every entry is right is \
proved as one fact about it, `filled` in `crates/table/specs/Table.antt`. This page shows it. Its \
numbers are printed from `tupehiwo_plain_entry` in `crates/plain/src/lib.rt`, which works them out \
from the plain rules and is proved to give what has to stand there (`entry_for` in \
`crates/plain/specs/Entry.antt`). Tests hold the page to that function (`tests/suite/page.rs`), and \
function and source to the rules of document 01, written apart in `tests/src/decisions.rs`.

## What an entry says

An entry is a number: the verdict, plus 16 where the operation's first flow is recorded, plus 32 \
where its second is. A refusal records no flow.

";

const FINDING: &str = "
## How to find an entry

L is a level and R a read level; ≤ is \"at or below\". Each operation has up to six facts, which \
hold or do not. The column says which of the facts 0, 1 and 2 hold, the row which of the facts 3, \
4 and 5. A fact that an operation does not have makes no difference.

";

const APART: &str = "
In the source a setting is a number too: fact 0 counts 1, fact 1 counts 2, then 4, 8, 16 and 32. \
Setting s stands in row s / 8 and column s % 8, both counted from 0. These are the rows and \
columns of this page. Every setting has an entry, whether or not some call comes to it.

## What is tested apart

In read, write, move and delete the object must be at or below its driver besides: L(o) ≤ L(d). \
Where it is not, the verdict is 11, unless the entry says 10. So a slip becomes 11, and no flow is \
recorded.

## What the table does not have

- The verdicts before the level tests, 2 to 9.
- The verdicts 12 and 16 of a deletion, which come after the level tests.
- Accesses. A read or a write that is granted or slips records its own.
- The flows by which a deletion bridges what it deletes.
- The other calls: start, execute, both creates, find, mark, step, spread and report. They look \
nothing up. A load looks up for each of its writes.
";

/// What docs/DECISION-TABLE.md has to be where the table has these numbers.
pub fn page(numbers: &Numbers) -> String {
    let mut page = BEGINNING.to_string();
    page += &numbers_explained(numbers);
    page += FINDING;
    page += &example(numbers);
    page += APART;
    for (operation, numbers) in OPERATIONS.iter().zip(numbers) {
        page += &section(operation, numbers);
    }
    page
}

/// Each number that occurs, and what it says.
fn numbers_explained(numbers: &Numbers) -> String {
    let occurring: BTreeSet<u8> = numbers.iter().flatten().copied().collect();
    let mut table = "| entry | verdict | flows recorded |\n|---|---|---|\n".to_string();
    for number in occurring {
        let flows = match number / 16 {
            0 => "none",
            1 => "the first",
            2 => "the second",
            3 => "both",
            _ => panic!("{number} is no entry"),
        };
        let verdict = number % 16;
        let verdict = format!("{verdict} {}", VERDICTS[usize::from(verdict)]);
        add_row(&mut table, &[number.to_string(), verdict, flows.into()]);
    }
    table
}

/// The paper's trial P8.
fn example([reads, ..]: &Numbers) -> String {
    let number = reads[setting_of([true, true, false, false, true, false])];
    format!(
        "For instance, a task at 1 with read level 1 reads an object at 2 through a marked driver \
         at 3, under the order Q of document 01. Of the facts of a read, 0, 1 and 4 hold. In \
         the row headed \"4\" and the column headed \"0 1\" stands {number}: the read slips, and \
         both flows are recorded.\n"
    )
}

fn section(operation: &Operation, numbers: &[u8; SETTINGS]) -> String {
    let Operation { name, deed, facts, apart, .. } = operation;
    let mut section = format!("\n## {}\n\n{deed}", capital(name));
    if *apart {
        section += " L(o) ≤ L(d) is tested apart.";
    }
    section += "\n\n| fact | holds where | in words |\n|---|---|---|\n";
    for (place, (signs, words)) in facts.iter().enumerate() {
        add_row(&mut section, &[place.to_string(), signs.to_string(), words.to_string()]);
    }
    section += &format!("\n{}{}\n\n", flows_of(operation), unused(facts.len()));
    section + &grid(numbers)
}

/// Why rows or columns are alike.
fn unused(used: usize) -> String {
    match used {
        6 => String::new(),
        5 => " Fact 5 makes no difference.".into(),
        4 => " Facts 4 and 5 make no difference.".into(),
        _ => format!(" Facts {used} to 5 make no difference."),
    }
}

fn flows_of(operation: &Operation) -> String {
    let said = |(from, to): Flow| format!("{from} to {to}");
    match operation.flows {
        (first, Some(second)) => {
            format!("First flow: {}. Second flow: {}.", said(first), said(second))
        }
        (only, None) => format!("One flow, the first: {}.", said(only)),
    }
}

/// The entries, under and beside the facts that hold.
fn grid(numbers: &[u8; SETTINGS]) -> String {
    let columns = (0..SIDE).map(|column| held(column, 0));
    let mut grid = String::new();
    add_row(&mut grid, &["facts that hold".into()].into_iter().chain(columns).collect::<Vec<_>>());
    grid += &format!("{}|\n", "|---".repeat(1 + SIDE));
    for (row, numbers) in numbers.chunks(SIDE).enumerate() {
        let cells = numbers.iter().map(u8::to_string);
        let heading = format!("**{}**", held(row, 3));
        add_row(&mut grid, &[heading].into_iter().chain(cells).collect::<Vec<_>>());
    }
    grid
}

/// Which of three facts hold, the first of them being this one.
fn held(three: usize, first: usize) -> String {
    let held = (0..3).filter(|fact| three >> fact & 1 == 1);
    let held: Vec<String> = held.map(|fact| (first + fact).to_string()).collect();
    if held.is_empty() { "none".into() } else { held.join(" ") }
}

fn add_row(table: &mut String, cells: &[String]) {
    writeln!(table, "| {} |", cells.join(" | ")).expect("a text takes what is written");
}

/// A name as a heading or the source has it.
pub fn capital(name: &str) -> String {
    let (first, rest) = name.split_at(1);
    first.to_uppercase() + rest
}
