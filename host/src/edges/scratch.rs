//! Scratch that is soiled or short.

use oracle::rng::Rng;
use oracle::Form;

use super::check::{refused_with, writes};
use super::index::one_bucket;
use super::ladders;
use super::texts::{in_form, k1, K1_LISTING};
use crate::calls::{Canon, OUTPUT};
use crate::input::draft::{tabs, Draft};
use crate::input::ladders::ladder;
use crate::report::Tally;

/// Scratch that comes in with other numbers than zero is none of the answer's.
pub fn soiled(canon: &mut Canon, tally: &mut Tally) {
    let mut rng = Rng::new(1);
    let mut draft = Draft::default();
    let prim = draft.prim(0);
    let var = draft.var(&[prim; 17], &[]);
    let lambda = draft.lambda(var, var);
    draft.root(lambda);
    // As K1: the list is of one id, and is visited once. In the negative place
    // the first pass falls back to it.
    let listing = "answers>1\nroot>2>+>2>9>0>0>4\n0>tyvar>1\n1>prim>0\n2>union>0,1\n3>fn>0>2\n";
    let (bucket, bucket_listing) = one_bucket();
    for (name, text, listing) in [
        ("K1", k1(), K1_LISTING),
        ("17 bounds", draft.text(), listing),
        ("46 levels", ladder(46), &ladders::listing(46)),
        ("one bucket", bucket, &bucket_listing),
    ] {
        for all in [false, true] {
            let mut out = vec![0xa5; OUTPUT];
            canon.scratch.soil(&mut rng, all);
            let outcome = canon.canon(&text, &mut out);
            let name = format!("{name}, soiled scratch, all of it: {all}");
            let listing = in_form(canon.form, listing);
            tally.take(&name, writes(outcome, &out, &listing));
        }
    }
}

/// Refusal 20, before all else.
pub fn short(canon: &mut Canon, tally: &mut Tally) {
    let texts = [
        ("K1", k1()),
        ("no bytes", Vec::new()),
        ("frozen", tabs("budget>1\nfrozen\n")),
        ("too long", vec![b'x'; 65_537]),
    ];
    for (i, (slice, stated)) in canon.scratch.stated.into_iter().enumerate() {
        for length in [stated - 1, stated / 2, 0] {
            for (what, text) in &texts {
                canon.scratch.lent[i] = length;
                let mut out = vec![0xa5; OUTPUT];
                let name = format!("{slice} of {length}, {what}");
                let outcome = canon.canon(text, &mut out);
                tally.take(&name, refused_with(outcome, 20, 0));
                if canon.form == Form::Plain {
                    let outcome = canon.canon_root(text, 9, 0, &mut out[..0]);
                    tally.take(&format!("{name}, one root"), refused_with(outcome, 20, 0));
                }
                canon.scratch.lend_stated();
            }
        }
        canon.scratch.lent[i] = stated + 1;
        let mut out = vec![0xa5; OUTPUT];
        let outcome = canon.canon(&k1(), &mut out);
        let name = format!("{slice} of one more");
        let listing = in_form(canon.form, K1_LISTING);
        tally.take(&name, writes(outcome, &out, &listing));
        canon.scratch.lend_stated();
    }
}
