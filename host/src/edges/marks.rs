//! The bailed mark by the bails of both passes, at the edges of the budget.

use super::edge::{Edges, Expect, ROOM};
use crate::calls::OUTPUT;

pub const TABLE: &str = include_str!("../../../examples/bailed.table");
pub const LISTING: &str = include_str!("../../../examples/bailed.listing");

/// Unbounded, the first root takes 539 and 266 operations, the second root 523
/// and 522.
pub fn bails(edges: &mut Edges) {
    let listing = Expect::Listing(LISTING.into());
    edges.add("bailed", TABLE.into(), OUTPUT, listing);
    let first = "root>0>+>2>779>0>1>6";
    let both = "root>6>+>2>1024>0>1>5";
    let whole = "root>0>+>2>805>0>0>8";
    let second = "root>6>+>2>1035>0>1>5";
    for (budget, heads) in [
        (0, [first, both]),
        (511, [first, both]),
        (512, [whole, second]),
        (1_034, [whole, second]),
        (1_035, [whole, "root>6>+>2>1045>0>0>8"]),
    ] {
        let text = TABLE.replacen("511", &budget.to_string(), 1);
        let heads = heads.map(|head| head.replace('>', "\t")).to_vec();
        let name = format!("bails with budget {budget}");
        edges.add(&name, text.into(), ROOM, Expect::Roots(heads));
    }
}
