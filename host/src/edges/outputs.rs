//! Refusal 12: the length of the output.

use oracle::Form;

use super::edge::Edges;
use super::texts::{in_form, k1, of_length, K1_LISTING};
use crate::input::draft::tabs;

pub fn outputs(edges: &mut Edges) {
    for form in Form::ALL {
        let name = |name: &str| format!("{form:?}, {name}");
        for (what, text, plain) in [
            ("no roots", tabs("budget>1\n"), "answers>0\n"),
            ("K1", k1(), K1_LISTING),
        ] {
            edges.fits(form, &name(what), &text, &in_form(form, plain));
        }
        for length in [65_535, 65_536, 65_537, 66_000] {
            let (text, listing) = of_length(form, length);
            let what = format!("listing of {length} bytes");
            edges.fits(form, &name(&what), &text, &listing);
        }
    }
}
