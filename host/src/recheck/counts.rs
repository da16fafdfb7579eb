//! What pairs of tables came to.

use crate::input::join;
use crate::report::rows::{print_heads, print_row};

/// Of the pairs of one kind of table.
#[derive(Clone, Default)]
pub struct Counts {
    pub pairs: u64,
    /// With an old listing that is longer than 65,536 bytes, which is 11.
    pub long: u64,
    /// With an answer that is, which is 12.
    pub twelve: u64,
    pub kept: u64,
    pub redone: u64,
    /// Roots whose old lines were altered.
    pub kept_altered: u64,
    pub redone_altered: u64,
    pub failed: u64,
}

/// A row for each kind of table, and one for all.
pub fn print(by_kind: &[Counts]) {
    print_heads(&[
        "profile",
        "pairs",
        "of them 11, line 0",
        "of them 12",
        "kept",
        "redone",
        "kept, altered",
        "redone, altered",
        "DIFFERS",
    ]);
    for (name, counts) in join::kinds().zip(by_kind) {
        if counts.pairs > 0 {
            print_row(name, cells(counts));
        }
    }
    print_row("all", sums(by_kind));
}

/// The cells of the last row.
pub fn sums(by_kind: &[Counts]) -> [u64; 8] {
    by_kind.iter().map(cells).fold([0; 8], |sums, cells| {
        std::array::from_fn(|i| sums[i] + cells[i])
    })
}

fn cells(counts: &Counts) -> [u64; 8] {
    [
        counts.pairs,
        counts.long,
        counts.twelve,
        counts.kept,
        counts.redone,
        counts.kept_altered,
        counts.redone_altered,
        counts.failed,
    ]
}
