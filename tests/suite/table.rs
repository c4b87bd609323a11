//! The decision table: what the rules say, the numbers in the source, and what the library does
//! in each setting that some order allows.

use std::collections::BTreeSet;

use tupehiwo::ffi::code;
use tupehiwo_tests::cast::Cast;
use tupehiwo_tests::compare::Pair;
use tupehiwo_tests::decisions::{
    Entry, Facts, Flow, OPERATIONS, Operation, SETTINGS, SIDE, capital, facts_of, setting_of,
};
use tupehiwo_tests::model::Verdict;
use tupehiwo_tests::settings::{CODES, Met};
use tupehiwo_tests::stages::{call, orders, stages};
use tupehiwo_tests::text_of;

const SOURCE: &str = "crates/table/src/lib.rt";

// -------------------------------------------------------------------- the source

/// The type of the table, how it begins and how it ends.
const TYPE: &str = "type Entries = [[[u8; ROW]; ROWS]; OPERATIONS];\n";
const BEGINNING: &str = "const ENTRIES: Entries = [\n";
const END: &str = "\n];\n";

/// An operation's part of the table: what the comment above it says, and the numbers.
#[derive(Clone, Debug, PartialEq)]
struct Part {
    name: String,
    facts_and_flows: String,
    rows: Vec<Vec<u8>>,
}

impl Part {
    /// Under a comment such as "Call, of b by a: L(a) ≤ L(b), ..": the name ends at the comma.
    fn under(comment: &str) -> Part {
        let (subject, facts_and_flows) = comment.split_once(": ").unwrap_or((comment, ""));
        let name = subject.split(',').next().unwrap_or("").to_string();
        Part { name, facts_and_flows: facts_and_flows.to_string(), rows: Vec::new() }
    }

    /// As the rules have it.
    fn of(operation: &Operation) -> Part {
        let facts: Vec<&str> = operation.facts.iter().map(|(signs, _)| *signs).collect();
        let flow = |(from, to): Flow| format!("{from} to {to}");
        let flows = match operation.flows {
            (first, Some(second)) => format!("Flows: {}, {}.", flow(first), flow(second)),
            (only, None) => format!("One flow: {}.", flow(only)),
        };
        Part {
            name: capital(operation.name),
            facts_and_flows: format!("{}. {flows}", facts.join(", ")),
            rows: operation.numbers().map(|row| row.to_vec()).to_vec(),
        }
    }

    fn as_source(&self) -> String {
        let words = |row: &Vec<u8>| row.iter().map(u8::to_string).collect::<Vec<_>>().join(", ");
        let rows = self.rows.iter().map(|row| format!("        [{}],\n", words(row)));
        let rows: String = rows.collect();
        format!("    // {}: {}\n    [\n{rows}    ],\n", self.name, self.facts_and_flows)
    }
}

fn as_source(parts: &[Part]) -> String {
    let parts: String = parts.iter().map(Part::as_source).collect();
    format!("{TYPE}\n{BEGINNING}{parts}];\n")
}

/// The parts of the one table of a source, in their order.
fn parts_in(source: &str) -> Vec<Part> {
    assert!(source.contains(TYPE), "no '{TYPE}'");
    let pieces: Vec<&str> = source.split(BEGINNING).collect();
    let [_, rest] = pieces[..] else { panic!("not one '{BEGINNING}'") };
    let (table, _) = rest.split_once(END).expect("the table has an end");
    let mut parts: Vec<Part> = Vec::new();
    for line in table.lines().map(str::trim).filter(|line| !["[", "],"].contains(line)) {
        if let Some(comment) = line.strip_prefix("// ") {
            parts.push(Part::under(comment));
        } else {
            let part = parts.last_mut().expect("a row stands under a comment");
            part.rows.push(row_in(line));
        }
    }
    parts
}

/// A row in brackets, with the comma after it.
fn row_in(line: &str) -> Vec<u8> {
    let row = line.strip_prefix('[').and_then(|rest| rest.strip_suffix("],"));
    let number = |word: &str| word.parse().unwrap_or_else(|_| panic!("no number: {word}"));
    row.unwrap_or_else(|| panic!("no row: {line}")).split(", ").map(number).collect()
}

/// Where the code of a source looks each operation's part up.
fn places_in(source: &str) -> Vec<(String, usize)> {
    let place = |line: &str| {
        let (name, place) = line.trim().strip_prefix("Operation::")?.split_once(" => ")?;
        Some((name.to_string(), place.strip_suffix(',')?.parse().ok()?))
    };
    source.lines().filter_map(place).collect()
}

#[test]
fn the_source_has_the_table() {
    let expected = OPERATIONS.each_ref().map(Part::of);
    let source = text_of(SOURCE);
    let found = parts_in(&source);
    let unlike = found.iter().zip(&expected).filter(|(found, part)| found != part);
    let unlike: Vec<&str> = unlike.map(|(_, part)| part.name.as_str()).collect();
    assert!(
        found == expected,
        "{SOURCE} has another table, in {unlike:?}, than this:\n{}",
        as_source(&expected)
    );
    let places: Vec<_> = expected.iter().zip(0..).map(|(part, k)| (part.name.clone(), k)).collect();
    assert_eq!(places_in(&source), places);
}

/// Where any of the 512 numbers is another.
#[test]
fn another_number_is_seen() {
    let parts = OPERATIONS.each_ref().map(Part::of);
    assert_eq!(parts_in(&as_source(&parts)), parts);
    for part in 0..parts.len() {
        for setting in 0..SETTINGS {
            let mut changed = parts.clone();
            changed[part].rows[setting / SIDE][setting % SIDE] += 1;
            let found = parts_in(&as_source(&changed));
            assert!(found == changed && found != parts, "{} {setting}", parts[part].name);
        }
    }
}

/// Where a name, a fact, a flow or a row's length is another, a row is missing, or two are
/// exchanged; and where a part stands elsewhere.
#[test]
fn another_source_is_seen() {
    let parts = OPERATIONS.each_ref().map(Part::of);
    let source = as_source(&parts);
    let exchanged = |one: &str, other: &str| {
        source.replacen(one, "ANOTHER", 1).replacen(other, one, 1).replacen("ANOTHER", other, 1)
    };
    for changed in [
        source.replacen("[10, 11,", "// [10, 11,", 1),
        source.replacen("[10, 11,", "[10, 10, 11,", 1),
        source.replacen("// Read:", "// Reed:", 1),
        source.replacen("// Pass:", "// Post:", 1),
        source.replacen("R(e) ≤ L(d)", "R(e) ≤ L(o)", 1),
        source.replacen("e to o, e to d", "e to d, e to o", 1),
        exchanged("// Read:", "// Write:"),
        exchanged("[10, 11, 11, 11, 10, 16, 0, 16]", "[10, 0, 0, 0, 10, 16, 0, 16]"),
    ] {
        assert!(changed != source && parts_in(&changed) != parts, "{changed}");
    }
    let places = "Operation::Read => 0,\n        Operation::Write => 1,\n";
    let read_and_write = [("Read".to_string(), 0), ("Write".to_string(), 1)];
    assert_eq!(places_in(places), read_and_write);
    for changed in [places.replace('0', "2"), places.replace("Write", "Move")] {
        assert_ne!(places_in(&changed), read_and_write);
    }
}

// --------------------------------------------------------------------- the rules

/// An operation's entry where just these facts hold.
fn looked_up(operation: usize, held: &[usize]) -> Entry {
    let facts: Facts = std::array::from_fn(|fact| held.contains(&fact));
    OPERATIONS[operation].entry(setting_of(facts))
}

/// P6 to P10: under Q a task at 1, an object at 2 and its driver at 3, or at 2 in the last two.
#[test]
fn the_trials_of_the_paper() {
    let [read, invoke] = [code::READ, code::INVOKE].map(operation_of);
    let entry = |verdict, both| Entry { verdict, flows: [both; 2] };
    assert_eq!(looked_up(read, &[0, 1, 3]), entry(Verdict::Granted, false));
    assert_eq!(looked_up(read, &[0, 1]), entry(Verdict::Rule, false));
    assert_eq!(looked_up(read, &[0, 1, 4]), entry(Verdict::Slipped, true));
    assert_eq!(looked_up(read, &[4]), entry(Verdict::Path, false));
    assert_eq!(looked_up(invoke, &[]), entry(Verdict::Rule, false));
}

fn operation_of(code: u16) -> usize {
    CODES.iter().position(|&other| other == code).expect("one of the eight")
}

/// Facts past an operation's own make no difference, and each of its own does.
#[test]
fn only_its_own_facts_make_a_difference() {
    let used = OPERATIONS.each_ref().map(|operation| operation.facts.len());
    assert_eq!(used, [6, 2, 3, 2, 4, 2, 5, 5]);
    for operation in &OPERATIONS {
        for fact in 0..6 {
            let differs = |s: usize| operation.entry(s) != operation.entry(s ^ 1 << fact);
            let matters = (0..SETTINGS).any(differs);
            assert_eq!(matters, fact < operation.facts.len(), "{} {fact}", operation.name);
        }
    }
}

#[test]
fn entries_are_verdicts_and_flows() {
    for operation in &OPERATIONS {
        for setting in 0..SETTINGS {
            let Entry { verdict, flows } = operation.entry(setting);
            let refused = [Verdict::Path, Verdict::Rule].contains(&verdict);
            assert!(refused || [Verdict::Granted, Verdict::Slipped].contains(&verdict));
            assert!(!refused || flows == [false; 2], "{} {setting}", operation.name);
            assert!(!flows[1] || operation.flows.1.is_some(), "{} {setting}", operation.name);
            assert_eq!(setting_of(facts_of(setting)), setting);
        }
    }
}

// ------------------------------------------------------- what the library does there

/// Stages of each setting, and the numbers of the one that asks in them.
const STAGES: usize = 24;
const ASKERS: [u16; 6] = [1, 2, 62, 63, 120, 127];

/// Each setting that some order allows, with the test apart holding and failing where the
/// operation has it. The pair holds verdict and flows against the table.
#[test]
fn every_setting_that_an_order_allows() {
    assert_eq!(orders().len(), 219, "the partial orders of four levels");
    let stages = stages(STAGES);
    let mut pair = Pair::new("settings");
    for (&met, stages) in &stages {
        let code = CODES[met.operation];
        for (stage, asker) in stages.iter().zip(ASKERS.iter().cycle()) {
            let cast = Cast::of(*asker);
            pair.set_state(stage.state(&cast, code));
            let answer = pair.perform(stage.order, call(&cast, code));
            assert_eq!(answer.verdict, met.entry().verdict as u8, "{met} {stage:?}");
        }
    }
    let possible: BTreeSet<Met> = stages.into_keys().collect();
    pair.table.settings.must_be(&possible, "that an order allows");
    must_be_so_many(&possible);
}

/// Why the others of the 512 are met by no call: they have a fact that the operation does not
/// have, which a call leaves out. Of the rest none is ruled out by the order; where the
/// object is at or below its driver, some are, all of them reads: what is at or below the
/// object is at or below the driver then.
fn must_be_so_many(possible: &BTreeSet<Met>) {
    let used: usize = OPERATIONS.iter().map(|operation| 1 << operation.facts.len()).sum();
    let settings: BTreeSet<_> = possible.iter().map(|met| (met.operation, met.setting)).collect();
    assert_eq!((used, settings.len(), OPERATIONS.len() * SETTINGS - used), (164, 164, 348));
    let failing = possible.iter().filter(|met| met.below == Some(false));
    let twice: usize = OPERATIONS.iter().filter(|it| it.apart).map(|it| 1 << it.facts.len()).sum();
    assert_eq!((failing.count(), twice), (80, 80));
    let ruled_out = used + twice - possible.len();
    let reads = possible.iter().filter(|met| met.operation == operation_of(code::READ));
    assert_eq!((ruled_out, reads.count()), (28, 2 * SETTINGS - 28));
    println!(
        "of the settings of the table 348 of 512 have a fact that their operation does not; \
         an order allows the other 164, and with the test apart 216 of 244"
    );
}
