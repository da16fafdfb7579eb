//! Damaged tables: our number and line beside those of a second reader. Those
//! that are accepted all the same are compared as the others are.

use std::collections::BTreeMap;

use oracle::{damage, reader, Fault, Form, Table};

use super::comparison::Comparison;
use crate::calls::{refused, Outcome};
use crate::report::{kept, watch, Tally};

struct Damaged {
    /// The tables that are accepted.
    accepted: Comparison,
    /// Accepted tables that the Rust has no counterpart for.
    outside: u64,
    /// The refusals, by their number.
    numbers: BTreeMap<u32, u64>,
    tally: Tally,
}

pub fn run(all: &mut Comparison, count: u64, seed: u64) -> Tally {
    let mut damaged = Damaged {
        accepted: Comparison::new(),
        outside: 0,
        numbers: BTreeMap::new(),
        tally: Tally::default(),
    };
    for index in 0..count {
        let seed = seed.wrapping_add(index);
        let (told, text) = damage::table(seed);
        watch::begin(&text);
        let ours = all.canon.canon(&text, &mut all.out);
        let result = ours.and_then(|ours| damaged.table(seed, &text, ours));
        damaged.tally.count(result.is_ok());
        if let Err(fault) = result {
            all.canon.scratch.wipe();
            let file = kept::keep("differ", &format!("damaged-{seed}"), &text);
            println!("{file} ({told}): {fault}");
        }
    }
    damaged.print(count);
    let failed = damaged.tally.failed + damaged.accepted.faults.count;
    Tally {
        failed,
        ..damaged.tally
    }
}

impl Damaged {
    fn table(&mut self, seed: u64, text: &[u8], ours: Outcome) -> Result<(), String> {
        match (reader::read(text), ours) {
            (Err(theirs), Err(ours)) if ours == theirs.into() => {
                *self.numbers.entry(ours.number).or_default() += 1;
                Ok(())
            }
            (Err(theirs), ours) => Err(format!("ours {ours:?}, theirs {theirs:?}")),
            (Ok(table), ours) => self.accepted(seed, &table, ours),
        }
    }

    fn accepted(&mut self, seed: u64, table: &Table, ours: Outcome) -> Result<(), String> {
        match oracle::answers_of(Form::Plain, table) {
            Err(Fault::Outside) => self.outside += 1,
            _ => {
                let name = format!("damaged {seed}");
                self.accepted.table(0, &name, table, false);
            }
        }
        match ours {
            Err(refusal) if refusal != refused(12, 0) => {
                Err(format!("an accepted table is {refusal:?}"))
            }
            _ => Ok(()),
        }
    }

    fn print(&self, count: u64) {
        let numbers = self.numbers.iter();
        let refusals: Vec<String> = numbers
            .map(|(number, count)| format!("{count} by {number}"))
            .collect();
        println!(
            "{count} damaged tables: refused {}; accepted {} with {} roots, {} outside the Rust's domain",
            refusals.join(", "),
            count - self.numbers.values().sum::<u64>() - self.tally.failed,
            self.accepted.roots,
            self.outside
        );
    }
}
