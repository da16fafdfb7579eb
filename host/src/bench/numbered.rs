//! canon_numbered's time beside canon's, over all profiles.

use std::hint::black_box;
use std::time::Duration;

use oracle::{gen, Form, Table};

use super::beside::{SIZES, TABLES};
use super::clock::{median, ratio, time, told, RUNS};
use super::parts::joined;
use crate::calls::{Canon, OUTPUT};
use crate::report::rows::{print_heads, print_row};

/// Runs of one table: many, since the two are close to each other.
const TURNS: usize = 5 * RUNS;

pub fn run() {
    if !oracle::text_at_hand() {
        println!("bench: the Rust text is not at hand, canon_numbered is skipped");
        return;
    }
    println!("Processor time for each root over all profiles, from medians of {TURNS} runs:");
    println!();
    print_heads(&[
        "roots in a call",
        "entries",
        "roots",
        "canon",
        "canon_numbered",
        "canon_numbered / canon",
    ]);
    let mut canons = Form::ALL.map(Canon::new);
    for (name, single) in [("up to 64", false), ("one", true)] {
        for size in SIZES {
            row(&mut canons, name, size, &tables(size, single));
        }
    }
}

/// The tables of all profiles.
fn tables(size: usize, single: bool) -> Vec<Table> {
    let parts = (0..gen::PROFILES.len()).flat_map(|p| (0..TABLES).map(move |part| (p, part)));
    parts
        .filter_map(|(profile, part)| joined(profile, size, part, single))
        .collect()
}

fn row(canons: &mut [Canon; 2], name: &str, size: usize, tables: &[Table]) {
    let (mut roots, mut sums) = (0, [Duration::ZERO; 2]);
    for table in tables {
        if let Some([plain, numbered]) = measure(canons, &table.to_text()) {
            roots += table.roots.len();
            sums = [sums[0] + plain, sums[1] + numbered];
        }
    }
    let [plain, numbered] = sums.map(|sum| sum / roots.max(1) as u32);
    let sizes = [size, roots].map(|size| size.to_string());
    let times = [told(plain), told(numbered), ratio(numbered, plain)];
    print_row(name, sizes.into_iter().chain(times));
}

/// In turn, so that a busy machine slows both; none for a table that is refused.
fn measure(canons: &mut [Canon; 2], text: &[u8]) -> Option<[Duration; 2]> {
    let mut out = vec![0; OUTPUT];
    let mut times = [Vec::new(), Vec::new()];
    for canon in canons.iter_mut() {
        canon.bare(text, &mut out).ok()?;
    }
    for turn in 0..2 * TURNS {
        let form = turn % 2;
        times[form].push(time(|| {
            let _ = black_box(canons[form].bare(black_box(text), &mut out));
        }));
    }
    Some(times.map(median))
}
