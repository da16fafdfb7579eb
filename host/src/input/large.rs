//! Tables of one root at a limit of its run.

use super::draft::Draft;

/// 4,096 nodes, and one more for each list around them.
pub fn nodes(lists: u32) -> Vec<u8> {
    let mut draft = Draft::default();
    let (lower, upper) = (draft.prim(0), draft.prim(1));
    // 2 prims, 3 for each of 819 leaves, 2 for each of 818 lambdas, 1 for the
    // topmost.
    let tree = draft.tree(819, lower, upper);
    let top = draft.lists(tree, lists).last().copied();
    draft.rooted(top.unwrap_or(tree))
}

/// 16,250 cells, and one more for each optional key.
pub fn cells(optional: u32) -> Vec<u8> {
    let mut draft = Draft::with_names(optional);
    let prim = draft.prim(0);
    let mut members = vec![prim];
    members.extend(draft.lists(prim, 125));
    // Unions and intersections of 2 to 126 members: 8,000 each; 125 fields:
    // 250.
    let negated = draft.negated_unions(&members);
    let optional: Vec<u32> = (0..optional).collect();
    let set = draft.set(&negated, &optional);
    draft.rooted(set)
}
