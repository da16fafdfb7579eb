//! Nodes of one bucket that are kept, and redone.

use super::edge::Edges;
use crate::edges::index::one_bucket;
use crate::edges::texts::in_form;

pub fn index(edges: &mut Edges) {
    let (new, listing) = one_bucket();
    let new = String::from_utf8_lossy(&new);
    // In the numbered form the old numbers are others, and copied.
    edges.kept("one bucket", &edges.same(&new, &listing));
    // The first variable differs.
    let old = new.replacen("tyvar\t1", "tyvar\t2", 1);
    let redone = edges.input(&old, &new, &listing);
    let listing = in_form(edges.form(), &listing);
    edges.redone("one bucket redone", &redone, &listing);
}
