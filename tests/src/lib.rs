//! The monitor modelled once more, from its paper alone and in another shape,
//! and the comparison of the library with that model.
//!
//! - [`model`]: what each call does, on sets and enums.
//! - [`script`]: what the script program prints, and [`cases`]: inputs for it.
//! - [`texts`]: random layouts and their texts, and [`prefix`]: where a text is none.
//! - [`compare`]: the library and the model side by side, held equal after each call.
//! - [`author`]: random calls that look at the state, so that each verdict occurs.
//! - [`list`]: a list of calls from a start, and [`history`]: what its calls have joined.
//! - [`memories`]: calls on memory that no list need leave.
//! - [`cast`]: small worlds in which each call is granted, slips or is refused.
//! - [`worlds`]: random orders and memories, reached from a start or not.
//! - [`table`]: how often each call gave each verdict, and which pairs cannot occur.
//! - [`causes`]: the same for the causes that share a verdict.
//! - [`decisions`]: the decision table and its page, [`settings`]: which of its settings a call
//!   meets, and [`stages`]: small worlds that meet each.

pub mod author;
pub mod cases;
pub mod cast;
pub mod causes;
pub mod compare;
pub mod decisions;
pub mod history;
pub mod list;
pub mod memories;
pub mod model;
pub mod prefix;
pub mod rng;
pub mod script;
pub mod settings;
pub mod stages;
pub mod table;
pub mod texts;
pub mod worlds;

use std::env;
use std::fs;
use std::path::{Path, PathBuf};

use tupehiwo::ffi::Request;

/// A request with these arguments, at most five; the others are 0.
pub fn request(code: u16, arguments: &[u16]) -> Request {
    let mut all = [0; 5];
    all[..arguments.len()].copy_from_slice(arguments);
    let [a, b, c, d, e] = all;
    Request { code, a, b, c, d, e }
}

/// A file of the repository.
pub fn in_repository(name: &str) -> PathBuf {
    Path::new(env!("CARGO_MANIFEST_DIR")).join("..").join(name)
}

/// What it has.
pub fn text_of(name: &str) -> String {
    fs::read_to_string(in_repository(name)).unwrap_or_else(|fault| panic!("{name}: {fault}"))
}

/// The script program: that which TUPEHIWO_TRAIL names, else the one in target/bin
/// of the repository. If it is missing, that is a failure.
pub fn trail() -> PathBuf {
    let name = "TUPEHIWO_TRAIL";
    let usual = || in_repository("target/bin/trail");
    let program = env::var_os(name).map_or_else(usual, PathBuf::from);
    assert!(program.is_file(), "{} is missing ({name} may name another)", program.display());
    program
}
