//! The bailed mark: a kept root has that of the old listing, a redone root its
//! own.

use super::edge::{input, Edges};
use crate::edges::marks::{LISTING, TABLE};
use crate::edges::texts::in_form;

pub fn marks(edges: &mut Edges) {
    // As it was where the mark told of the pass shown alone.
    let before = LISTING.replacen("779\t0\t1", "779\t0\t0", 1);
    let form = edges.form();
    let [told, before] = [LISTING, &before]
        .map(|listing| String::from_utf8_lossy(&in_form(form, listing)).into_owned());
    for (name, listing) in [("bailed", &told), ("bailed, not told", &before)] {
        edges.kept(name, &input(TABLE, TABLE, listing));
        // The first root has entry 1, the second entry 7, and both the chain.
        for (from, to, first, lines) in [
            ("fn\t24\t24", "fn\t24\t25", "redone\tkept\n", &told),
            ("fn\t40\t40", "fn\t40\t39", "kept\tredone\n", listing),
            ("var\t-\t-", "var\t-\t5", "redone\tredone\n", &told),
        ] {
            let input = input(&TABLE.replacen(from, to, 1), TABLE, listing);
            let name = format!("{name}, {}", first.trim_end());
            edges.answers(&name, &input, first, lines.as_bytes());
        }
    }
}
