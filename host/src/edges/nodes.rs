//! Refusals 8 and 9: the nodes and cells of a pass; and orders between limits.

use super::edge::{Edges, Expect, ROOM};
use crate::calls::OUTPUT;
use crate::input::draft::{tabs, Draft};
use crate::input::large;

/// Refusal 8.
pub fn nodes(edges: &mut Edges) {
    // Operations of a pass: 1, 2 for each of 818 lambdas, 4 for each of 819
    // leaves.
    let head = "root>1639>+>2>9826>0>0>4096";
    edges.root("4,096 nodes", large::nodes(0), head);
    edges.root("4,097 nodes", large::nodes(1), "refused>1640>+>8");
    let long = Expect::Refused(12, 0);
    edges.add("4,096 nodes do not fit", large::nodes(0), OUTPUT, long);
    let listing = tabs("answers>1\nrefused>1640>+>8\n");
    let (room, listing) = (listing.len(), Expect::Listing(listing));
    edges.add("4,097 nodes fit", large::nodes(1), room, listing);
}

/// Refusal 9.
pub fn cells(edges: &mut Edges) {
    // Operations: 1, and 5 for each field. Nodes shown: 126 members, as many
    // negations, 125 intersections, the set.
    let head = "root>376>+>1>626>0>0>378";
    edges.root("16,384 cells", large::cells(134), head);
    edges.root("16,385 cells", large::cells(135), "refused>376>+>9");
}

pub fn orders_of_limits(edges: &mut Edges) {
    // Before the last set 4,095 nodes and 15,796 cells are stored: 113
    // members, as many negations, 112 unions and intersections of 2 to 113
    // members; a prim, 3 for each of 729 leaves, 2 for each of 728 lambdas,
    // the topmost.
    let table = |fields: usize, more: bool| {
        let mut draft = Draft::with_names(300);
        let (prim, upper) = (draft.prim(0), draft.prim(1));
        let mut members = vec![prim];
        members.extend(draft.lists(prim, 112));
        let top = draft.tree(729, prim, upper);
        let mut all = vec![top];
        all.extend(draft.negated_unions(&members));
        if more {
            all.push(draft.named(0, prim));
        }
        all.push(draft.set(&vec![prim; fields], &[]));
        let set = draft.set(&all, &[]);
        draft.root(set);
        (set, draft.text())
    };
    for (name, fields, more, number) in [
        ("8 before 9", 295, true, 8),
        ("9 with a node less", 295, false, 9),
        ("8 behind the last cell", 294, false, 8),
    ] {
        let (root, text) = table(fields, more);
        edges.root(name, text, &format!("refused>{root}>+>{number}"));
    }
    members_before_nodes(edges);
}

/// The union that factoring makes of `equal` variables and a prim, when
/// `lists` nodes more than 4,094 are stored. In the first pass the variables
/// are fillers and all is small.
fn members_before_nodes(edges: &mut Edges) {
    let table = |equal: u32, lists: u32| {
        let mut draft = Draft::with_names(6);
        let (prim, upper) = (draft.prim(0), draft.prim(1));
        // 4,091 nodes; the first leaf is entry 2.
        let top = draft.tree(818, prim, upper);
        let tyvars: Vec<u32> = (0..equal).map(|_| draft.tyvar(2)).collect();
        let all_equal = draft.var(&tyvars, &[]);
        let other = draft.prim(3);
        let with_other = draft.union(tyvars[0], other);
        // The prim and both unions: 4,094.
        let mut fields = vec![top, all_equal, with_other];
        fields.extend(draft.lists(prim, lists));
        fields.push(draft.inter(all_equal, with_other));
        let set = draft.set(&fields, &[]);
        draft.root(set);
        (set, draft.text())
    };
    for (name, equal, lists, number) in [
        ("7 before 8", 128, 2, 7),
        ("8 with a member less", 127, 2, 8),
        ("7 with nodes to spare", 128, 0, 7),
        ("8 for the set around", 127, 1, 8),
    ] {
        let (root, text) = table(equal, lists);
        edges.root(name, text, &format!("refused>{root}>+>{number}"));
    }
    // Operations of a pass: the set 1, the tree 4,907, the variable 128, the
    // union 3, the inter 3.
    let (root, text) = table(127, 0);
    edges.root(
        "neither 7 nor 8",
        text,
        &format!("root>{root}>+>2>10084>1>0>4096"),
    );
}

/// What a root of 4,096 nodes leaves behind is none of the next one's: here
/// one with 20 bounds, of which each id is visited once.
pub fn after_a_large_root(edges: &mut Edges) {
    let mut draft = Draft::default();
    let (lower, upper) = (draft.prim(0), draft.prim(1));
    let top = draft.tree(819, lower, upper);
    let mut bounds: Vec<u32> = (0..18).map(|i| draft.prim(i % 2)).collect();
    bounds.extend_from_within(..2);
    let var = draft.var(&bounds, &[]);
    let list = draft.list(var);
    for root in [top, var, top, list, var] {
        draft.root(root);
    }
    let large = "root>1639>+>2>9826>0>0>4096";
    let small = "root>1658>+>1>19>0>0>3";
    let heads = [large, small, large, "root>1659>+>1>20>0>0>4", small];
    let heads = heads.map(|head| head.replace('>', "\t")).to_vec();
    edges.add(
        "roots after large ones",
        draft.text(),
        ROOM,
        Expect::Roots(heads),
    );
}
