//! The page that shows the decision table, docs/DECISION-TABLE.md. Its numbers are those that the
//! plain rules give, by a function of libplain.a that is proved; here that function is held to the
//! rules written apart, and the page to the function.
//!
//! The page is printed anew by the test that is left out otherwise:
//!
//!     cd tests && cargo test --release --test page -- --ignored

use std::fs;

use tupehiwo_tests::decisions::{Numbers, OPERATIONS, SETTINGS, page};
use tupehiwo_tests::{in_repository, text_of};

const PAGE: &str = "docs/DECISION-TABLE.md";

// 'tools/build plain' builds it beside libmonitor.a.
#[link(name = "plain", kind = "static")]
unsafe extern "C" {
    /// What has to stand in the table: operations by number in its order, and fact i being bit i
    /// of the setting.
    safe fn tupehiwo_plain_entry(operation: u16, setting: u16) -> u8;
}

/// Where a number names no operation or no setting.
const NO_ENTRY: u8 = 255;

/// What it gives for the whole table.
fn proved() -> Numbers {
    let number = |operation, setting| tupehiwo_plain_entry(operation as u16, setting as u16);
    std::array::from_fn(|operation| std::array::from_fn(|setting| number(operation, setting)))
}

#[test]
fn every_entry_is_that_of_the_rules_apart() {
    for (operation, numbers) in OPERATIONS.iter().zip(proved()) {
        for (setting, number) in numbers.into_iter().enumerate() {
            assert_eq!(number, operation.entry(setting).number(), "{} {setting}", operation.name);
        }
    }
}

/// Every operation's number with all settings, the first past them and the last number; every
/// setting's number with the operations likewise.
#[test]
fn other_numbers_have_no_entry() {
    let (operations, settings) = (OPERATIONS.len() as u16, SETTINGS as u16);
    let any = || 0..=u16::MAX;
    let up_to = |count: u16| (0..=count).chain([u16::MAX]);
    let any_operation = up_to(settings).flat_map(|setting| any().map(move |it| (it, setting)));
    let any_setting = up_to(operations).flat_map(|operation| any().map(move |it| (operation, it)));
    for (operation, setting) in any_operation.chain(any_setting) {
        let none = tupehiwo_plain_entry(operation, setting) == NO_ENTRY;
        let fits = operation < operations && setting < settings;
        assert_eq!(none, !fits, "{operation} {setting}");
    }
}

#[test]
fn the_page_shows_the_table() {
    let (shown, expected) = (text_of(PAGE), page(&proved()));
    let unlike = shown.lines().zip(expected.lines()).find(|(shown, line)| shown != line);
    assert!(
        shown == expected,
        "{PAGE} is not as the proved rules have it: {unlike:?}\n\
         'cd tests && cargo test --release --test page -- --ignored' prints it anew"
    );
}

#[test]
#[ignore = "writes the page"]
fn print_the_page() {
    fs::write(in_repository(PAGE), page(&proved())).expect("the page can be written");
}
