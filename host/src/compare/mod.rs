//! Our answers beside those of the Rust text, root by root.

mod comparison;
mod counts;
mod damaged;
mod numbered;
mod verdict;

use oracle::gen;

use crate::input::join::{self, JOINED, SLOW};
use crate::report::{watch, Tally};
use comparison::Comparison;

/// One table in so many has each of its roots asked for by `canon_root` too.
const SINGLE: u64 = 8;
/// One damaged table for so many roots.
const DAMAGED: u64 = 4;
/// For so many tables one is put together from several.
const TOGETHER: u64 = 10;

/// Compares `count` slow tables.
pub fn slow(count: u64, seed: u64) -> Tally {
    if !oracle::text_at_hand() {
        println!("compare: the Rust text is not at hand, skipped");
        return Tally::default();
    }
    let mut all = Comparison::new();
    for seed in seed..seed + count {
        let table = gen::table(gen::SLOW, seed);
        all.table(SLOW, &format!("slow {seed}"), &table, false);
    }
    all.print();
    Tally::of(all.roots, all.faults.count)
}

/// Compares at least `count` roots.
pub fn run(count: u64, seed: u64) -> Tally {
    if !oracle::text_at_hand() {
        println!("compare: the Rust text is not at hand, skipped");
        return Tally::default();
    }
    watch::start();
    let mut all = Comparison::new();
    let mut index = 0;
    while all.roots < count {
        let (profile, table) = gen::mixed(seed, index);
        let name = format!("{seed} {index}");
        all.table(profile, &name, &table, index % SINGLE == 0);
        if index % TOGETHER == 0 {
            if let Some(table) = join::several(seed, index) {
                all.table(JOINED, &format!("{name} joined"), &table, true);
            }
        }
        index += 1;
    }
    all.print();
    let roots = Tally::of(all.roots, all.faults.count);
    let damaged = damaged::run(&mut all, count / DAMAGED, seed);
    Tally {
        passed: roots.passed + damaged.passed,
        failed: roots.failed + damaged.failed,
    }
}
