//! How much stack a call takes on inputs that nest deeply. The thread that
//! measures has more than a caller's, so that a call that takes too much is
//! told of.

mod inputs;
mod paint;

use std::thread;

use oracle::listing::heading;
use oracle::table::Entry;
use oracle::{gen, reader, Form, Table};

use crate::calls::{Canon, Input, Outcome, Recheck};
use crate::lines;
use crate::report::rows::{print_heads, print_row};
use crate::report::Tally;
use inputs::inputs;
use paint::measured;

const STACK: usize = 6 << 20;
/// A call must stay below this.
const MOST: usize = 1 << 20;
/// Tables of each profile.
const SEEDS: u64 = 40;

/// Measures each input.
pub fn run() -> Tally {
    let thread = thread::Builder::new().stack_size(STACK).spawn(measure_all);
    let joined = thread.expect("a thread can be started").join();
    joined.expect("the measuring thread ends")
}

/// The bytes that canon and recheck take, and those of the numbered calls.
type Used = [usize; 4];

struct Measuring {
    /// In each form.
    calls: [(Canon, Recheck); 2],
    out: Vec<u8>,
    tally: Tally,
    worst: usize,
}

fn measure_all() -> Tally {
    let mut all = Measuring {
        calls: Form::ALL.map(|form| (Canon::new(form), Recheck::new(form))),
        out: vec![0; 1 << 20],
        tally: Tally::default(),
        worst: 0,
    };
    print_heads(&[
        "input",
        "outcome",
        "canon, stack bytes",
        "recheck, stack bytes",
        "canon_numbered",
        "recheck_numbered",
    ]);
    for deep in inputs() {
        let (used, outcome) = all.measure(&deep.text);
        let told = told(outcome, &all.out);
        all.row(deep.name, &told, used);
    }
    for (number, profile) in gen::PROFILES.iter().enumerate() {
        let tables = (0..SEEDS).map(|seed| gen::table(number, seed).to_text());
        let most = tables.fold(Used::default(), |most, text| {
            let (used, _) = all.measure(&text);
            std::array::from_fn(|i| most[i].max(used[i]))
        });
        all.row(&format!("{SEEDS} tables of {}", profile.name), "", most);
    }
    println!();
    let worst = all.worst;
    println!("worst: {worst} bytes of stack; a call must stay below {MOST}");
    all.tally
}

impl Measuring {
    /// What the calls take, where recheck redoes every root; and what canon,
    /// which is called last, came to.
    fn measure(&mut self, text: &[u8]) -> (Used, Outcome) {
        let out = &mut self.out;
        let mut outcome = Ok(0);
        let mut measure = |(canon, recheck): &mut (Canon, Recheck)| {
            let input = all_redone(canon.form, text);
            let again = measured(|| recheck.bare(&input, out)).0;
            let used;
            (used, outcome) = measured(|| canon.bare(text, out));
            [used, again]
        };
        let [plain, numbered] = &mut self.calls;
        let numbered = measure(numbered);
        let plain = measure(plain);
        ([plain[0], plain[1], numbered[0], numbered[1]], outcome)
    }

    fn row(&mut self, name: &str, told: &str, used: Used) {
        let bytes = used.map(|bytes| bytes.to_string());
        print_row(name, [told.to_string()].into_iter().chain(bytes));
        let most = used.into_iter().max().unwrap_or(0);
        self.tally.count(most < MOST);
        self.worst = self.worst.max(most);
    }
}

/// An old table whose roots' entries differ, and an old listing in form.
fn all_redone(form: Form, text: &[u8]) -> Input {
    let new = reader::read(text).unwrap_or_default();
    let mut old = new.clone();
    let mut listing = heading(form, new.roots.len());
    for root in &new.roots {
        old.entries[root.id as usize] = Entry::Prim(31);
        listing.push_str(&lines::refused_root(*root, 6));
    }
    Input {
        old: Table::to_text(&old),
        new: text.to_vec(),
        listing: listing.into_bytes(),
    }
}

/// The first line after `answers`, without its word.
fn told(outcome: Outcome, out: &[u8]) -> String {
    let Ok(length) = outcome else {
        return format!("{outcome:?}");
    };
    let text = String::from_utf8_lossy(&out[..length]);
    let line = text.lines().nth(1).unwrap_or_default();
    line.replace('\t', " ")
}
