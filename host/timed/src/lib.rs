//! The Rust text for timing: nothing is counted or measured in it but what a
//! listing tells, and hash maps, short vectors and short strings are as fast
//! as those of the crates that the text names.

#[cfg(text_at_hand)]
mod probe;
#[cfg(text_at_hand)]
#[path = "../../../oracle/src/run.rs"]
mod run;
#[cfg(text_at_hand)]
mod shims;
#[cfg(text_at_hand)]
#[path = "../../../oracle/src/text.rs"]
#[allow(unused, clippy::all)]
mod text;

// What run.rs names as its own crate's.
#[cfg(text_at_hand)]
use oracle::{table, Answer, Form, Measures, Node, Shown};

use oracle::{RootAnswer, Table};

/// The answers to a table's roots, on the caller's stack; none for a table
/// outside the text's domain.
#[cfg(text_at_hand)]
pub fn answers(table: &Table) -> Option<Vec<RootAnswer>> {
    run::run(Form::Plain, table)
}

/// Runs `f` on a thread with a stack that the text's recursion fits in.
#[cfg(text_at_hand)]
pub fn on_large_stack<R: Send>(f: impl FnOnce() -> R + Send) -> R {
    run::on_large_stack(f)
}

#[cfg(not(text_at_hand))]
pub fn answers(_table: &Table) -> Option<Vec<RootAnswer>> {
    None
}

#[cfg(not(text_at_hand))]
pub fn on_large_stack<R: Send>(f: impl FnOnce() -> R + Send) -> R {
    f()
}
