//! Negation of unions and intersections that share their parts. A part is
//! negated once here, and in the Rust once for each path to it, so that only
//! low ladders can be held against the Rust.

mod limits;
mod nodes;
mod sharing;

use super::edge::{Edges, Expect};
use crate::calls::OUTPUT;
use crate::input::draft::tabs;
use crate::input::ladders::ladder;

/// Two keys for each level, and four: the neg, the lowest union, a named type
/// and its prim. With 46 levels these are 96.
const MOST: u32 = 46;
/// The Rust is asked up to this level, which takes it 131,067 negations.
const ASKED: u32 = 14;

pub fn ladders(edges: &mut Edges) {
    for levels in 1..=MOST {
        let name = format!("a ladder of {levels} levels");
        add(edges, &name, ladder(levels), levels, &listing(levels));
    }
    sharing::sharing(edges);
    limits::limits(edges);
}

/// The listing of a ladder's negation, alone in its table.
pub fn listing(levels: u32) -> String {
    format!("answers>1\n{}", nodes::root(4 + 3 * levels, levels))
}

/// An edge in which so many levels are negated.
fn add(edges: &mut Edges, name: &str, text: Vec<u8>, levels: u32, listing: &str) {
    let listing = tabs(listing);
    let expect = match levels <= ASKED {
        true => Expect::Listing(listing),
        false => Expect::Unasked(listing),
    };
    edges.add(name, text, OUTPUT, expect);
}
