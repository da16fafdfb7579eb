//! Unions and intersections that share their parts, level upon level.

use super::draft::Draft;

/// The named types that all levels share.
pub const SIDES: [u32; 2] = [1, 2];
/// The union of them, below all levels.
pub const LOWEST: u32 = 3;

/// A table that begins with these, over a prim.
pub fn begun(names: u32) -> Draft {
    let mut draft = Draft::with_names(names);
    let prim = draft.prim(0);
    let sides = [0, 1].map(|name| draft.named(name, prim));
    let lowest = draft.union(sides[0], sides[1]);
    assert_eq!((sides, lowest), (SIDES, LOWEST), "the first entries");
    draft
}

/// The negation of a ladder, as a root.
pub fn ladder(levels: u32) -> Vec<u8> {
    let mut draft = begun(2);
    let top = draft.levels(LOWEST, SIDES, levels);
    let neg = draft.neg(top);
    draft.rooted(neg)
}
