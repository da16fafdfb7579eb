//! Makes the text that `src/text.rs` includes.
//!
//! The Rust text is not kept in this repository. It is read from a checkout
//! of JRMurr/tix that TIX_SRC names, or else from ../shared/docs/src beside
//! the repository; `build/sources.rs` says what is cut out of each file and
//! how it is patched. Every anchor and search text must occur exactly once,
//! or the build stops.

#[path = "build/counters.rs"]
mod counters;
#[path = "build/cut.rs"]
mod cut;
#[path = "build/sources.rs"]
mod sources;
#[path = "build/text.rs"]
mod text;

use std::process;

/// Where the text stands, seen from this folder.
const BESIDE: &str = "../../shared/docs/src";

fn main() {
    for part in ["build.rs", "build"] {
        println!("cargo:rerun-if-changed={part}");
    }
    let branches = |names: Vec<String>| text::write("branches.rs", &format!("&{names:?}"));
    if let Err(fault) = text::make(BESIDE).and_then(branches) {
        eprintln!("oracle: {fault}");
        process::exit(1)
    }
}
