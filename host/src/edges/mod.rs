//! Each refusal at its edge, and each order between two faults. What is
//! expected is written down by hand; where it can be, it is held against the
//! second reader of tables and against the Rust too.

mod ceilings;
mod check;
mod confirm;
mod drawn;
mod edge;
mod form;
mod index;
mod keys;
mod ladders;
mod marks;
mod members;
mod nodes;
mod numbered;
mod orders;
mod outputs;
mod ranges;
mod recheck;
mod scratch;
mod single;
mod texts;
mod worked;

use oracle::Form;

use crate::calls::Canon;
use crate::lines;
use crate::report::{watch, Tally};
use check::{refused_with, same, told, writes};
use confirm::confirm;
use edge::{Edge, Edges, Expect};

/// The edges of canon in both forms, by their subject.
const SUBJECTS: [fn(&mut Edges); 20] = [
    ceilings::text_length,
    ceilings::ceilings,
    form::form,
    form::escapes,
    ranges::ranges,
    ranges::ascending,
    orders::on_a_line,
    orders::of_lines,
    keys::keys,
    marks::bails,
    members::members,
    nodes::nodes,
    nodes::cells,
    nodes::orders_of_limits,
    nodes::after_a_large_root,
    ladders::ladders,
    index::index,
    drawn::drawn,
    outputs::outputs,
    numbered::numbered,
];

pub fn run() -> Tally {
    watch::start();
    let mut edges = Edges::default();
    for add in SUBJECTS {
        add(&mut edges);
    }
    let mut tally = Tally::default();
    for form in Form::ALL {
        of_canon(form, &edges, &mut tally);
    }
    single::single_roots(&mut Canon::new(Form::Plain), &mut tally);
    recheck::run(&mut tally);
    println!("{} edges", tally.passed + tally.failed);
    tally
}

fn of_canon(form: Form, edges: &Edges, tally: &mut Tally) {
    let mut canon = Canon::new(form);
    for edge in edges.all.iter().filter(|edge| edge.form == form) {
        watch::begin(&edge.text);
        tally.take(&edge.name, try_edge(&mut canon, edge));
    }
    scratch::soiled(&mut canon, tally);
    scratch::short(&mut canon, tally);
}

fn try_edge(canon: &mut Canon, edge: &Edge) -> Result<(), String> {
    confirm(edge).map_err(|fault| format!("what is expected is in doubt: {fault}"))?;
    let mut out = vec![0xa5; edge.room];
    let outcome = canon.canon(&edge.text, &mut out);
    match &edge.expect {
        Expect::Refused(number, line) => refused_with(outcome, *number, *line),
        Expect::Listing(listing) | Expect::Unasked(listing) => writes(outcome, &out, listing),
        Expect::Roots(heads) => {
            let length = outcome?.map_err(told)?;
            let blocks = lines::blocks(&out[..length]);
            let ours: Vec<String> = blocks.iter().map(|b| lines::head(b).join("\t")).collect();
            same(&ours, heads)
        }
    }
}
