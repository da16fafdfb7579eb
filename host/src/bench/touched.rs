//! recheck's time beside that of canon afresh, by the number of roots that an
//! edit touches.

use std::hint::black_box;
use std::time::Duration;

use oracle::table::Entry;
use oracle::{gen, reader, Form, Table};

use super::clock::{median, ratio, time, told, RUNS};
use super::libraries::{self, Each};
use super::parts::joined;
use crate::calls::{Canon, Input, Library, Recheck, OUTPUT};
use crate::input::draft::Draft;
use crate::recheck::model;
use crate::report::rows::{print_heads, print_row};

const TOUCHED: [usize; 5] = [0, 1, 8, 32, 64];

pub fn run() {
    println!("Processor time of a call, medians of {RUNS} runs, with 64 roots:");
    println!();
    let heads = [
        "table",
        "entries",
        "bytes",
        "listing's bytes",
        "roots redone",
        "canon",
        "recheck",
        "recheck / canon",
    ];
    let canon = libraries::heads(["canon before", "canon / before"]);
    let recheck = libraries::heads(["recheck before", "recheck / before"]);
    print_heads(&[&heads[..], &canon, &recheck].concat());
    let parts = gen::profile("dense").and_then(|profile| joined(profile, 2_000, 0, false));
    for (name, table) in [("small parts", parts), ("a common core", core())] {
        let Some(table) = table else { continue };
        for most in TOUCHED {
            row(name, &table, most);
        }
    }
}

fn row(name: &str, new: &Table, most: usize) {
    let (old, redone) = touching(new, most);
    let (mut canon, mut recheck) = (Canon::new(Form::Plain), Recheck::new(Form::Plain));
    let (old, new_text) = (old.to_text(), new.to_text());
    let Some(listing) = libraries::listing(&mut canon, &old) else {
        return;
    };
    let input = Input {
        old,
        new: new_text,
        listing,
    };
    let sizes = [
        new.entries.len(),
        input.new.len(),
        input.listing.len(),
        redone,
    ];
    let (afresh, again) = measure(&mut canon, &mut recheck, &input);
    let times = [told(afresh[0]), told(again[0]), ratio(again[0], afresh[0])];
    let sizes = sizes.into_iter().map(|size| size.to_string());
    let earlier = [afresh, again].into_iter().flat_map(libraries::cells);
    print_row(name, sizes.chain(times).chain(earlier));
}

/// canon and recheck in turn, so that a busy machine slows all.
fn measure(
    canon: &mut Canon,
    recheck: &mut Recheck,
    input: &Input,
) -> (Each<Duration>, Each<Duration>) {
    let written = libraries::written(|library, out| recheck.bare_of(library, input, out));
    assert!(written.is_some(), "the text fits");
    let fresh = libraries::listing(canon, &input.new);
    assert!(fresh.is_some(), "the listing fits");
    let mut out = vec![0; OUTPUT];
    let (mut afresh, mut again) = <(Each<Vec<Duration>>, Each<Vec<Duration>>)>::default();
    for _ in 0..RUNS {
        let times = afresh.iter_mut().zip(&mut again);
        for (library, (afresh, again)) in Library::ALL.into_iter().zip(times) {
            afresh.push(time(|| {
                let _ = black_box(canon.bare_of(library, black_box(&input.new), &mut out));
            }));
            again.push(time(|| {
                let _ = black_box(recheck.bare_of(library, black_box(input), &mut out));
            }));
        }
    }
    (afresh.map(median), again.map(median))
}

/// An old table that differs in the entries of roots, so that at most so many
/// are redone, and how many are.
fn touching(new: &Table, most: usize) -> (Table, usize) {
    let (mut old, mut redone) = (new.clone(), 0);
    for root in &new.roots {
        let mut next = old.clone();
        next.entries[root.id as usize] = Entry::Prim(31);
        let touched = model::redone(&next, new);
        let touched = touched.iter().filter(|&&redone| redone).count();
        if touched <= most {
            (old, redone) = (next, touched);
        }
    }
    (old, redone)
}

/// 64 lambdas, each with entries of its own over entries that all share.
fn core() -> Option<Table> {
    let mut draft = Draft::default();
    let prims: Vec<u32> = [0, 1, 3, 4, 5, 6, 7, 8].map(|code| draft.prim(code)).into();
    let core = unions(&mut draft, &prims, 20, 20);
    for _ in 0..64 {
        let own = unions(&mut draft, &core, 5, 4);
        let param = draft.var(&[], &[own[0]]);
        let body = draft.var(&own, &[]);
        let lambda = draft.lambda(param, body);
        draft.root(lambda);
    }
    reader::read(&draft.text()).ok()
}

/// Rows of unions, each of two entries of the row before; the last row.
fn unions(draft: &mut Draft, first: &[u32], width: usize, height: usize) -> Vec<u32> {
    (0..height).fold(first.to_vec(), |row, _| {
        let at = |j: usize| row[j % row.len()];
        (0..width).map(|j| draft.union(at(j), at(j + 1))).collect()
    })
}
