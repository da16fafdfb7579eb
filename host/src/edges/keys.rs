//! Refusal 6: the keys in progress.

use super::edge::{Edges, Expect};
use crate::calls::OUTPUT;
use crate::input::draft::{tabs, Draft};

pub fn keys(edges: &mut Edges) {
    let nested = |count| {
        let mut draft = Draft::default();
        let prim = draft.prim(0);
        draft.lists(prim, count);
        draft.rooted(count)
    };
    edges.root("96 keys", nested(95), "root>95>+>1>96>0>0>96");
    edges.root("97 keys", nested(96), "refused>96>+>6");
    let ring = |count: u32| {
        let mut draft = Draft::default();
        for i in 0..count {
            draft.list((i + 1) % count);
        }
        draft.rooted(0)
    };
    edges.root("a ring of 96", ring(96), "root>0>+>1>97>0>0>97");
    edges.root("a ring of 97", ring(97), "refused>0>+>6");
    cached_key(edges);
    bail_at_the_97th(edges);
    let mut draft = Draft::default();
    let prim = draft.prim(0);
    draft.lists(prim, 96);
    draft.root(96);
    draft.root(0);
    let listing = "answers>2\nrefused>96>+>6\nroot>0>+>1>1>0>0>1\n0>prim>0\n";
    edges.add(
        "other roots go on",
        draft.text(),
        OUTPUT,
        Expect::Listing(tabs(listing)),
    );
}

/// With 96 keys in progress what is in the cache is still answered.
fn cached_key(edges: &mut Edges) {
    let table = |cached: bool| {
        let mut draft = Draft::with_names(2);
        let prim = draft.prim(0);
        let last = draft.lists(prim, 95)[94];
        let first = if cached { prim } else { last };
        let set = draft.set(&[first, last], &[]);
        draft.rooted(set)
    };
    // The set, the prim, 95 lists, and the prim again.
    let head = "root>96>+>1>98>0>0>97";
    edges.root("a 97th visit, cached", table(true), head);
    edges.root("a 97th visit, not cached", table(false), "refused>96>+>6");
}

/// The visit to the 97th key is operation 512: a bail comes before 6.
fn bail_at_the_97th(edges: &mut Edges) {
    let mut draft = Draft::with_names(26);
    let prim = draft.prim(0);
    // 24 times 17 operations and once 7, after 1 for the set: 416.
    let mut fields: Vec<u32> = (0..24).map(|_| draft.var(&[prim; 16], &[])).collect();
    fields.push(draft.var(&[prim; 6], &[]));
    let other = draft.prim(3);
    fields.push(draft.lists(other, 95)[94]);
    let set = draft.set(&fields, &[]);
    draft.root(set);
    // A prim, a variable, 95 lists, the set.
    let head = "root>122>+>1>512>0>1>98";
    edges.root("bail before 6", draft.text_with(511), head);
    edges.root("6 without a bail", draft.text_with(512), "refused>122>+>6");
}
