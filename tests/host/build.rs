//! Link the static library: target/staticlib/libplanner.a of the repository, or the one in the directory that the
//! environment variable PLANNER_LIBRARY names.

use std::env;
use std::path::{Path, PathBuf};

fn main() {
    let here = env::var_os("CARGO_MANIFEST_DIR").expect("cargo sets it");
    let built = Path::new(&here).join("../../target/staticlib");
    let directory = env::var_os("PLANNER_LIBRARY").map_or(built, PathBuf::from);
    let archive = directory.join("libplanner.a");
    assert!(archive.is_file(), "{} is not there: make it with `rt staticlib planner`", archive.display());
    println!("cargo:rerun-if-env-changed=PLANNER_LIBRARY");
    println!("cargo:rerun-if-changed={}", archive.display());
    println!("cargo:rustc-link-search=native={}", directory.display());
    println!("cargo:rustc-link-lib=static=planner");
}
