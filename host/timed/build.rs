//! Makes the text as oracle/build.rs does, but without its branch counters.

#[path = "../../oracle/build/cut.rs"]
mod cut;
#[path = "../../oracle/build/sources.rs"]
mod sources;
#[path = "../../oracle/build/text.rs"]
mod text;

mod counters {
    use crate::cut::Counters;

    pub const DISJOINT: &[Counters] = &[];
    pub const COLLECT: &[Counters] = &[];
}

use std::process;

/// Where the text stands, seen from this folder.
const BESIDE: &str = "../../../shared/docs/src";

fn main() {
    for part in ["build.rs", "../../oracle/build"] {
        println!("cargo:rerun-if-changed={part}");
    }
    if let Err(fault) = text::make(BESIDE) {
        eprintln!("timed: {fault}");
        process::exit(1)
    }
}
