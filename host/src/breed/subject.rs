//! What is timed of a table.

use std::hint::black_box;
use std::time::Duration;

use oracle::table::Entry;
use oracle::{Form, Table};

use crate::bench::clock::time;
use crate::calls::{Canon, Input, Library, Recheck, OUTPUT};

/// canon with all roots, recheck with all of them redone, or what either reads.
pub enum Call {
    Canon(Canon),
    Recheck(Recheck),
    Read(Canon),
    ReadTwo(Recheck),
}

impl Call {
    pub fn named(name: &str) -> Option<Self> {
        match name {
            "canon" => Some(Call::Canon(Canon::new(Form::Plain))),
            "recheck" => Some(Call::Recheck(Recheck::new(Form::Plain))),
            "read" => Some(Call::Read(Canon::new(Form::Plain))),
            "read-two" => Some(Call::ReadTwo(Recheck::new(Form::Plain))),
            _ => None,
        }
    }

    pub fn name(&self) -> &'static str {
        match self {
            Call::Canon(_) => "canon",
            Call::Recheck(_) => "recheck",
            Call::Read(_) => "read",
            Call::ReadTwo(_) => "read-two",
        }
    }

    pub fn time(&mut self, table: &Table) -> Duration {
        self.time_of(Library::Ours, table)
    }

    pub fn time_of(&mut self, library: Library, table: &Table) -> Duration {
        let mut out = vec![0; OUTPUT];
        match self {
            Call::Canon(canon) => {
                let text = table.to_text();
                time(|| {
                    let _ = black_box(canon.bare_of(library, black_box(&text), &mut out));
                })
            }
            Call::Read(canon) => {
                let text = rootless(table).to_text();
                time(|| {
                    let _ = black_box(canon.bare_of(library, black_box(&text), &mut out));
                })
            }
            Call::Recheck(recheck) => {
                let mut old = table.clone();
                for root in &table.roots {
                    old.entries[root.id as usize] = Entry::Prim(31);
                }
                let input = input(&old, table);
                time(|| {
                    let _ = black_box(recheck.bare_of(library, black_box(&input), &mut out));
                })
            }
            Call::ReadTwo(recheck) => {
                let input = input(table, table);
                time(|| {
                    let _ = black_box(recheck.bare_of(library, black_box(&input), &mut out));
                })
            }
        }
    }
}

fn rootless(table: &Table) -> Table {
    Table {
        roots: Vec::new(),
        ..table.clone()
    }
}

/// A pair of tables with an old listing in form: each root is refused in it.
fn input(old: &Table, new: &Table) -> Input {
    let roots = old.roots.iter();
    let lines = roots.map(|root| crate::lines::refused_root(*root, 9));
    let heading = format!("answers\t{}\n", old.roots.len());
    let listing = [heading].into_iter().chain(lines).collect::<String>();
    Input {
        old: old.to_text(),
        new: new.to_text(),
        listing: listing.into_bytes(),
    }
}
