//! A ladder that is kept, and one that is redone.

use super::edge::Edges;
use crate::edges::ladders::listing;
use crate::edges::texts::in_form;
use crate::input::ladders::ladder;

const LEVELS: u32 = 46;

pub fn ladders(edges: &mut Edges) {
    let new = ladder(LEVELS);
    let new = String::from_utf8_lossy(&new);
    let listing = listing(LEVELS);
    edges.kept("a ladder", &edges.same(&new, &listing));
    // The prim below all levels differs.
    let old = new.replacen("prim\t0", "prim\t1", 1);
    let redone = edges.input(&old, &new, "answers>1\nrefused>142>+>6\n");
    let listing = in_form(edges.form(), &listing);
    edges.redone("a ladder redone", &redone, &listing);
}
