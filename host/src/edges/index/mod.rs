//! The index of the store: a new node is compared only with those whose rows are
//! in its bucket. Nothing of it shows in a listing.

mod again;
mod full;
mod hashes;
mod limits;
mod roots;
mod shapes;

use super::edge::{Edges, Expect, ROOM};
use crate::input::draft::tabs;

pub fn index(edges: &mut Edges) {
    hashes::hashes(edges);
    again::again(edges);
    roots::roots(edges);
    limits::limits(edges);
}

/// A table whose nodes are nearly all in one bucket, and its listing.
pub fn one_bucket() -> (Vec<u8>, String) {
    let (text, lines) = again::all_of_a_bucket();
    (text, format!("answers>1\n{lines}"))
}

/// A table of one root with these lines.
fn add(edges: &mut Edges, name: &str, text: Vec<u8>, lines: &str) {
    add_roots(edges, name, text, &[lines]);
}

/// A table of several.
fn add_roots(edges: &mut Edges, name: &str, text: Vec<u8>, lines: &[impl AsRef<str>]) {
    let mut listing = format!("answers>{}\n", lines.len());
    listing.extend(lines.iter().map(AsRef::as_ref));
    edges.add(name, text, ROOM, Expect::Listing(tabs(&listing)));
}
