//! The lengths of what is lent: the output and the scratch.

use oracle::Form;

use super::edge::{Edges, ROOT};
use crate::calls::{Input, OUTPUT};
use crate::edges::check::{refused_with, told};
use crate::edges::texts::of_length;

/// 65,536 bytes of a listing are in form, and 12 counts the first line too.
pub fn listings(edges: &mut Edges) {
    for length in [65_000, 65_535, 65_536] {
        let input = of_listing(edges.form(), length);
        edges.kept(&format!("a listing of {length} bytes"), &input);
        let mut out = vec![0xa5; OUTPUT];
        let outcome = edges.recheck.recheck(&input, &mut out);
        let name = format!("a listing of {length} bytes, for the program");
        // 64 times `kept` and a tab or a line feed come before it.
        let fits = match length + 320 > OUTPUT {
            true => refused_with(outcome, 12, 0),
            false => outcome.and_then(|outcome| outcome.map(drop).map_err(told)),
        };
        edges.tally.take(&name, fits);
    }
    // Of either form: its length comes first.
    for form in Form::ALL {
        let input = of_listing(form, 65_537);
        edges.refused("a listing of 65,537 bytes", &input, 11, 0);
    }
}

/// A listing of so many bytes, and its table twice.
fn of_listing(form: Form, length: usize) -> Input {
    let (table, listing) = of_length(form, length);
    Input {
        old: table.clone(),
        new: table,
        listing,
    }
}

/// Refusal 20, before all else.
pub fn short_scratch(edges: &mut Edges) {
    let good = "budget>1\nprim>0\nroot>0>+\n";
    let whole = edges.same(good, &format!("answers>1\n{ROOT}1\n0>prim>0\n"));
    for (i, (slice, stated)) in edges.recheck.scratch.stated.into_iter().enumerate() {
        for length in [stated - 1, stated / 2, 0] {
            for (what, input) in [("in form", &whole), ("no bytes", &Input::default())] {
                edges.recheck.scratch.lent[i] = length;
                let outcome = edges.recheck.recheck(input, &mut [0xa5; 100]);
                let name = format!("{slice} of {length}, {what}");
                edges.tally.take(&name, refused_with(outcome, 20, 0));
                edges.recheck.scratch.lend_stated();
            }
        }
        edges.recheck.scratch.lent[i] = stated + 1;
        edges.kept(&format!("{slice} of one more"), &whole);
        edges.recheck.scratch.lend_stated();
    }
}
