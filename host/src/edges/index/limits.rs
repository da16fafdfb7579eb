//! Refusals 8 and 9, whatever the buckets: one below the limit, at it, and one
//! above it. A node that is met again takes nothing, and the next root finds
//! nothing of this one.

use super::add_roots;
use super::full::{self, Buckets, Full};
use crate::edges::drawn::answered;
use crate::edges::edge::{Edges, Expect, ROOM};
use crate::edges::worked::Nodes;

pub fn limits(edges: &mut Edges) {
    for (buckets, name) in [
        (Buckets::One, "of one bucket"),
        (Buckets::All, "of all buckets"),
    ] {
        nodes(edges, buckets, name);
        cells(edges, buckets, name);
    }
}

fn nodes(edges: &mut Edges, buckets: Buckets, name: &str) {
    for variables in 0..=2 {
        let full = full::nodes(buckets, variables);
        let (root, count) = (full.root, 4_095 + variables);
        let name = format!("{count} nodes {name}");
        match variables {
            2 => refused(edges, &name, full, &format!("refused>{root}>+>8\n")),
            _ => {
                // Of a pass: 4 for the union, two sets and the lambda; in either
                // place 3 for sets, 2 for each of 1,969 types and 1 for a prim;
                // 173 in the tree; then 2 for what is cached, and twice 2 for the
                // first type and 1 for each variable.
                let operations = 2 * (8_067 + 2 * variables);
                let head = format!("root>{root}>+>2>{operations}>0>0>{count}");
                shown(edges, &name, full, &head);
            }
        }
    }
}

fn cells(edges: &mut Edges, buckets: Buckets, name: &str) {
    for optional in 339..=341 {
        let full = full::cells(buckets, optional);
        let (root, count) = (full.root, 16_044 + optional);
        let name = format!("{count} cells {name}");
        match optional {
            341 => refused(edges, &name, full, &format!("refused>{root}>->9\n")),
            _ => {
                // 1 for the root, 1,000 for the variables, 4 for each of 8 merged
                // sets. Shown are the variables, 7 sets and the root.
                let head = format!("root>{root}>->1>1033>0>0>1008");
                shown(edges, &name, full, &head);
            }
        }
    }
}

/// A set of the first two entries, turned, as the next root.
fn next(full: &mut Full) -> (u32, String) {
    let set = full.draft.set(&[1, 0], &[]);
    full.draft.root(set);
    let mut nodes = Nodes::default();
    for line in full.first.iter().rev() {
        nodes.node(line.clone());
    }
    nodes.set(&[0, 1]);
    (set, nodes.root(set, 3))
}

fn refused(edges: &mut Edges, name: &str, mut full: Full, line: &str) {
    let (_, lines) = next(&mut full);
    add_roots(edges, name, full.draft.text(), &[line, &lines]);
}

/// By its first line, and as a whole as the Rust lists it.
fn shown(edges: &mut Edges, name: &str, mut full: Full, head: &str) {
    let (set, _) = next(&mut full);
    let text = full.draft.text();
    let heads = [head, &format!("root>{set}>+>1>3>0>0>3")];
    let heads = heads.map(|head| head.replace('>', "\t")).to_vec();
    edges.add(name, text.clone(), ROOM, Expect::Roots(heads));
    if let Some((text, listing)) = answered(text) {
        let name = format!("{name}, the Rust's listing");
        edges.add(&name, text, ROOM, Expect::Unasked(listing));
    }
}
