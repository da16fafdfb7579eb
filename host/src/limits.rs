//! The limits of a root's run, 6 to 9, beside the sizes of the Rust's.

use oracle::Measures;

/// Keys in progress; more is 6.
pub const KEYS: usize = 96;
/// Members of a list; more is 7.
pub const MEMBERS: usize = 128;
/// Nodes of a pass; more is 8.
pub const NODES: usize = 4_096;
/// Cells of a pass; more is 9.
pub const CELLS: usize = 16_384;

/// Of nodes and cells the Rust may store fewer than the rules say, so that
/// from a little below a limit ours may pass it.
pub const NEAR_NODES: usize = 4_000;
pub const NEAR_CELLS: usize = 16_000;

/// Keys and lists are within their limits. They are the same in the Rust.
pub fn lists_within(sizes: Measures) -> bool {
    sizes.keys <= KEYS && sizes.list <= MEMBERS
}

/// All is, with these for nodes and cells.
pub fn within(sizes: Measures, nodes: usize, cells: usize) -> bool {
    lists_within(sizes) && sizes.nodes <= nodes && sizes.cells <= cells
}
