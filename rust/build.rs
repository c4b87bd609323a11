//! Links the monitor's static library: from the folder that TUPEHIWO_LIB_DIR
//! names, else from target/staticlib of the repository.

use std::env;
use std::path::PathBuf;

const FOLDER: &str = "TUPEHIWO_LIB_DIR";

fn main() {
    println!("cargo::rerun-if-env-changed={FOLDER}");
    let folder = env::var_os(FOLDER).map_or_else(repository_folder, PathBuf::from);
    let library = folder.join("libmonitor.a");
    println!("cargo::rerun-if-changed={}", library.display());
    assert!(
        library.is_file(),
        "{} is missing: build it at the root of the repository with 'tools/build monitor', \
         or name the folder that has it in {FOLDER}",
        library.display()
    );
    println!("cargo::rustc-link-search=native={}", folder.display());
    println!("cargo::rustc-link-lib=static=monitor");
}

fn repository_folder() -> PathBuf {
    let here = env::var_os("CARGO_MANIFEST_DIR").expect("cargo names the crate's folder");
    PathBuf::from(here).join("../target/staticlib")
}
