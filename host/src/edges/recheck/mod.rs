//! recheck at its edges. What is expected is written down by hand, and held
//! against the model of recheck too.

mod edge;
mod forms;
mod index;
mod ladders;
mod lengths;
mod listing;
mod marks;
mod tables;

use oracle::Form;

use crate::calls::Recheck;
use crate::report::Tally;
use edge::Edges;

pub fn run(tally: &mut Tally) {
    for form in Form::ALL {
        of_form(form, tally);
    }
}

fn of_form(form: Form, tally: &mut Tally) {
    let mut edges = Edges {
        recheck: Recheck::new(form),
        tally,
    };
    listing::first_lines(&mut edges);
    listing::root_lines(&mut edges);
    listing::node_lines(&mut edges);
    listing::numbers_of_nodes(&mut edges);
    forms::mixed(&mut edges);
    forms::second_lines(&mut edges);
    forms::numbers(&mut edges);
    tables::differing_lines(&mut edges);
    tables::orders(&mut edges);
    ladders::ladders(&mut edges);
    marks::marks(&mut edges);
    index::index(&mut edges);
    lengths::listings(&mut edges);
    lengths::short_scratch(&mut edges);
}
