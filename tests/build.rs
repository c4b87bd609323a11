//! The suites engines and page link libplain.a besides, from the folder that the library is in.
//! Cargo does not see that, so the tests are built anew when something in that folder changes.

use std::env;
use std::path::PathBuf;

const FOLDER: &str = "TUPEHIWO_LIB_DIR";

fn main() {
    println!("cargo::rerun-if-env-changed={FOLDER}");
    let here = env::var_os("CARGO_MANIFEST_DIR").expect("cargo names the crate's folder");
    let usual = || PathBuf::from(here).join("../target/staticlib");
    let folder = env::var_os(FOLDER).map_or_else(usual, PathBuf::from);
    println!("cargo::rerun-if-changed={}", folder.display());
}
