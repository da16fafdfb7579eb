//! Several negations of ladders that share their parts: what one of them has
//! negated is right for the others, or is none of theirs.

use super::nodes::{root, visits};
use super::{add, MOST};
use crate::calls::OUTPUT;
use crate::edges::edge::{Edges, Expect};
use crate::edges::worked::Nodes;
use crate::input::draft::{tabs, Draft};
use crate::input::ladders::{begun, LOWEST, SIDES};

pub fn sharing(edges: &mut Edges) {
    // One more key than a ladder alone.
    for levels in [1, 2, 10, MOST - 1] {
        by_a_lambda(edges, levels);
        by_a_set(edges, levels);
        negations(edges, levels);
        roots(edges, levels);
    }
    for (shared, own) in [(0, 5), (1, 1), (5, 5), (20, 25), (44, 1)] {
        two_ladders(edges, shared, own);
    }
    equal_members(edges);
}

/// From both places of a lambda, which visits the ladder in both polarities.
fn by_a_lambda(edges: &mut Edges, levels: u32) {
    let mut draft = begun(2);
    let top = draft.levels(LOWEST, SIDES, levels);
    let negs = [draft.neg(top), draft.neg(top)];
    let lambda = draft.lambda(negs[0], negs[1]);
    let mut nodes = Nodes::default();
    let top = nodes.negated(levels);
    nodes.node(format!("fn>{top}>{top}"));
    let lines = nodes.root(lambda, 1 + 2 * visits(levels));
    let name = format!("{levels} levels negated twice by a lambda");
    let listing = format!("answers>1\n{lines}");
    add(edges, &name, draft.rooted(lambda), levels, &listing);
}

/// From two fields; the second negation finds the ladder cached.
fn by_a_set(edges: &mut Edges, levels: u32) {
    let mut draft = begun(2);
    let top = draft.levels(LOWEST, SIDES, levels);
    let negs = [draft.neg(top), draft.neg(top)];
    let set = draft.set(&negs, &[]);
    let mut nodes = Nodes::default();
    let top = nodes.negated(levels);
    nodes.node(format!("set>0:{top},1:{top}>->0>-"));
    let lines = nodes.root(set, 1 + visits(levels) + 2);
    let name = format!("{levels} levels negated twice by a set");
    let listing = format!("answers>1\n{lines}");
    add(edges, &name, draft.rooted(set), levels, &listing);
}

/// A negation, its negation, and the negation of that.
fn negations(edges: &mut Edges, levels: u32) {
    let mut draft = begun(3);
    let top = draft.levels(LOWEST, SIDES, levels);
    let once = draft.neg(top);
    let twice = draft.neg(once);
    let thrice = draft.neg(twice);
    let set = draft.set(&[once, twice, thrice], &[]);
    let mut nodes = Nodes::default();
    let negated = nodes.negated(levels);
    let upright = nodes.upright(levels);
    nodes.node(format!("set>0:{negated},1:{upright},2:{negated}>->0>-"));
    // The second visits the ladder in the other polarity, the third ends at
    // the first, which is cached.
    let operations = 1 + visits(levels) + (1 + visits(levels)) + 3;
    let lines = nodes.root(set, operations);
    let name = format!("{levels} levels, negated again and again");
    let listing = format!("answers>1\n{lines}");
    add(edges, &name, draft.rooted(set), levels, &listing);
}

/// Roots that are ladders, one a part of the other: each run begins anew.
fn roots(edges: &mut Edges, levels: u32) {
    let mut draft = begun(2);
    let low = draft.levels(LOWEST, SIDES, levels - 1);
    let high = draft.levels(low, SIDES, 1);
    let low = (draft.neg(low), levels - 1);
    let high = (draft.neg(high), levels);
    let mut listing = String::from("answers>4\n");
    for (id, levels) in [high, low, low, high] {
        draft.root(id);
        listing.push_str(&root(id, levels));
    }
    let name = format!("roots of {levels} levels and of one less");
    add(edges, &name, draft.text(), levels, &listing);
}

/// Two ladders over one, with one side in common; then the one below, and the
/// first again.
fn two_ladders(edges: &mut Edges, shared: u32, own: u32) {
    let mut draft = begun(4);
    let below = draft.levels(LOWEST, SIDES, shared);
    let third = draft.named(2, 0);
    let first = draft.levels(below, SIDES, own);
    let second = draft.levels(below, [third, SIDES[0]], own);
    let negs = [first, second, below, first].map(|top| draft.neg(top));
    let set = draft.set(&negs, &[]);
    let mut nodes = Nodes::default();
    let below = nodes.negated(shared);
    let first = nodes.negated_levels(below, [0, 1], own);
    let second = nodes.negated_levels(below, [2, 0], own);
    nodes.node(format!(
        "set>0:{first},1:{second},2:{below},3:{first}>->0>-"
    ));
    // The second: itself, its levels, a prim, the one below; then twice a
    // negation of what is cached.
    let operations = 1 + visits(shared + own) + (1 + 6 * own + 1 + 1) + 2 + 2;
    let lines = nodes.root(set, operations);
    let name = format!("two ladders of {own} levels over one of {shared}");
    let listing = format!("answers>1\n{lines}");
    add(edges, &name, draft.rooted(set), shared + own, &listing);
}

/// More than 64 members, which are kept although they are equal.
fn equal_members(edges: &mut Edges) {
    let mut draft = Draft::default();
    let prims: Vec<u32> = (0..65).map(|_| draft.prim(0)).collect();
    let var = draft.var(&[], &prims);
    let neg = draft.neg(var);
    let members = vec!["1"; 65].join(",");
    let listing =
        format!("answers>1\nroot>{neg}>+>1>67>0>0>3\n0>prim>0\n1>neg>0\n2>union>{members}\n");
    let listing = Expect::Listing(tabs(&listing));
    edges.add(
        "65 equal members, negated",
        draft.rooted(neg),
        OUTPUT,
        listing,
    );
}
