//! The call for one root.

use super::check::{refused_with, writes};
use super::texts::{k1, K1_LISTING};
use crate::calls::Canon;
use crate::input::draft::{tabs, Draft};
use crate::report::Tally;

pub fn single_roots(canon: &mut Canon, tally: &mut Tally) {
    let k1_lines = K1_LISTING.split_once('\n').unwrap_or_default().1;
    let prim = "root>2>+>1>1>0>0>1\n0>prim>0\n";
    // In a negative place the variable falls back to its lower bound.
    let negative = "root>0>->1>2>0>0>1\n0>prim>0\n";
    for (id, sign, text) in [(1, 0, k1_lines), (2, 0, prim), (0, 1, negative)] {
        let name = format!("root {id} of K1");
        let length = tabs(text).len();
        let mut out = vec![0xa5; length];
        let outcome = canon.canon_root(&k1(), id, sign, &mut out);
        tally.take(&name, writes(outcome, &out, &tabs(text)));
        let outcome = canon.canon_root(&k1(), id, sign, &mut out[..length - 1]);
        tally.take(&format!("{name}, one short"), refused_with(outcome, 12, 0));
    }
    let mut draft = Draft::default();
    let prim = draft.prim(0);
    draft.lists(prim, 96);
    let mut out = vec![0xa5; 100];
    let outcome = canon.canon_root(&draft.text(), 96, 1, &mut out);
    tally.take(
        "97 keys of one root",
        writes(outcome, &out, &tabs("refused>96>->6\n")),
    );
    for (name, text, id, line) in [
        ("root n", k1(), 3, 0),
        ("the greatest root", k1(), u32::MAX, 0),
        ("a root of nothing", tabs("budget>1\n"), 0, 0),
        ("3 of the table first", tabs("budget>1\nlist>7\n"), 9, 2),
    ] {
        let outcome = canon.canon_root(&text, id, 0, &mut []);
        tally.take(name, refused_with(outcome, 3, line));
    }
    let outcome = canon.canon_root(&tabs("budget>1\nfrozen\n"), 9, 0, &mut []);
    tally.take("5 before a root's 3", refused_with(outcome, 5, 2));
}
