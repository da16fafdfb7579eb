//! What the roots of each kind of table came to.

use std::collections::BTreeMap;

use super::verdict::{Verdict, VERDICTS};
use crate::input::join;
use crate::report::rows::{print_heads, print_row};

/// Of one kind of table.
#[derive(Clone, Default)]
pub struct Counts {
    pub tables: u64,
    /// Tables whose listing is longer than 65,536 bytes, refused with 12.
    pub long: u64,
    verdicts: BTreeMap<Verdict, u64>,
}

impl Counts {
    pub fn add(&mut self, verdict: Verdict, roots: u64) {
        *self.verdicts.entry(verdict).or_default() += roots;
    }

    fn add_all(&mut self, others: &Counts) {
        self.tables += others.tables;
        self.long += others.long;
        for (&verdict, &roots) in &others.verdicts {
            self.add(verdict, roots);
        }
    }

    fn print(&self, name: &str, columns: &[(Verdict, &str)]) {
        let roots = |(verdict, _): &_| self.verdicts.get(verdict).copied().unwrap_or(0);
        let roots = columns.iter().map(roots);
        print_row(name, [self.tables, self.long].into_iter().chain(roots));
    }
}

/// A row for each kind of table that there were, and one for all. What no root came to has no
/// column, but for differing.
pub fn print(by_kind: &[Counts]) {
    let mut all = Counts::default();
    for counts in by_kind {
        all.add_all(counts);
    }
    let mut columns = VERDICTS.to_vec();
    columns
        .retain(|(verdict, _)| *verdict == Verdict::Differs || all.verdicts.contains_key(verdict));
    let mut heads = vec!["profile", "tables", "of them 12"];
    heads.extend(columns.iter().map(|(_, head)| head));
    print_heads(&heads);
    for (name, counts) in join::kinds().zip(by_kind) {
        if counts.tables > 0 {
            counts.print(name, &columns);
        }
    }
    all.print("all", &columns);
}
