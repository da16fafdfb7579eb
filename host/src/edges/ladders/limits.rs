//! Negated ladders at the limits of a run.

use super::nodes::root;
use crate::calls::OUTPUT;
use crate::edges::edge::{Edges, Expect};
use crate::input::draft::{tabs, Draft};
use crate::input::ladders::{begun, ladder, LOWEST, SIDES};

/// Of the ladder in a root that is refused.
const LEVELS: u32 = 12;

pub fn limits(edges: &mut Edges) {
    keys(edges);
    within(edges, 8, more_nodes);
    within(edges, 9, more_cells);
    numbers(edges);
}

/// Refusal 6 comes before anything is negated. A list around a ladder takes as
/// many keys as its negation, and there the Rust returns.
fn keys(edges: &mut Edges) {
    let listed = |levels: u32| {
        let mut draft = begun(2);
        let top = draft.levels(LOWEST, SIDES, levels);
        let list = draft.list(top);
        draft.rooted(list)
    };
    edges.root("46 levels, 96 keys", listed(46), "root>142>+>1>282>0>0>143");
    edges.root("47 levels, 98 keys", listed(47), "refused>145>+>6");
    let refused = Expect::Unasked(tabs("answers>1\nrefused>145>+>6\n"));
    edges.add("a ladder of 47 levels", ladder(47), OUTPUT, refused);
    let mut draft = begun(2);
    let top = draft.levels(LOWEST, SIDES, 46);
    let neg = draft.neg(top);
    let list = draft.list(neg);
    let refused = Expect::Unasked(tabs("answers>1\nrefused>143>+>6\n"));
    edges.add("a ladder in a list", draft.rooted(list), OUTPUT, refused);
}

/// A root that is refused within a negation leaves nothing to the next one.
/// Its ladder has the same nodes as the next one's, since it is visited first.
fn within(edges: &mut Edges, number: u32, more: fn(&mut Draft) -> Vec<u32>) {
    let mut draft = begun(150);
    let top = draft.levels(LOWEST, SIDES, LEVELS);
    let neg = draft.neg(top);
    let first = draft.lambda(top, 0);
    let fields = [vec![first], more(&mut draft), vec![neg]].concat();
    let set = draft.set(&fields, &[]);
    draft.root(set);
    draft.root(neg);
    let refused = format!("refused>{set}>+>{number}\n");
    let listing = format!("answers>2\n{refused}{}", root(neg, LEVELS));
    let name = format!("{number} within a negation");
    let listing = Expect::Listing(tabs(&listing));
    edges.add(&name, draft.text(), OUTPUT, listing);
}

/// 4,041 nodes; the ladder and the lambda have 40 more, the negation 39.
fn more_nodes(draft: &mut Draft) -> Vec<u32> {
    let upper = draft.prim(1);
    vec![draft.tree(808, 0, upper)]
}

/// 16,000 cells as in `large::cells`, and 300; the ladder has 74 more, and so
/// has its negation.
fn more_cells(draft: &mut Draft) -> Vec<u32> {
    let mut members = vec![0];
    members.extend(draft.lists(0, 125));
    let mut fields = draft.negated_unions(&members);
    fields.push(draft.set(&[0; 150], &[]));
    fields
}

/// A negation of nodes that were stored long before it and of the last ones,
/// in the second of two passes.
fn numbers(edges: &mut Edges) {
    let table = |leaves: u32, levels: [u32; 2]| {
        let mut draft = begun(3);
        let upper = draft.prim(1);
        let tree = draft.tree(leaves, 0, upper);
        let low = draft.levels(LOWEST, SIDES, levels[0]);
        let high = draft.levels(low, SIDES, levels[1]);
        let negs = [draft.neg(low), draft.neg(high)];
        let set = draft.set(&[negs[0], tree, negs[1]], &[]);
        draft.rooted(set)
    };
    // Stored: 43 of the low ladder and its negation, 2,020 of the tree, 36 of
    // the high one, which begin at node 2,063, and the set. All but 37 unions
    // and intersections are shown. Operations of a pass: 1, 42, the tree's
    // 2,423, and 38.
    let head = "root>851>+>2>5008>0>0>2063";
    edges.root("a ladder over one far below", table(404, [6, 6]), head);
    // Stored: 43, 4,010, 42, and the set; 40 are not shown. Operations of a
    // pass: 1, 42, 4,811 and 44.
    let head = "root>1650>+>2>9796>0>0>4056";
    edges.root("negated, 4,096 nodes", table(802, [6, 7]), head);
}
