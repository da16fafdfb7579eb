//! Our time for the slow tables of the generator, in their full size, beside the
//! Rust's: a call with one root, and one with 64.

use std::hint::black_box;
use std::time::Duration;

use oracle::gen::{self, slow::SHAPES};
use oracle::{Form, Table};

use super::beside::rust_listing;
use super::clock::{median, ratio, time, told};
use super::libraries::{self, Each};
use crate::calls::{Canon, Library, OUTPUT};
use crate::lines;
use crate::report::rows::{print_heads, print_row};

/// Fewer than elsewhere: a run takes up to seconds.
const RUNS: usize = 3;
const ROOTS: usize = 64;

pub fn run() {
    println!("Processor time of a call on slow tables, medians of {RUNS} runs:");
    println!();
    let heads = ["table", "entries", "bytes", "comes to", "ours"];
    let earlier = libraries::heads(["before", "ours / before"]);
    let last = ["Rust", "ours / Rust", "ours, 64 roots"];
    print_heads(&[&heads[..], &earlier, &last].concat());
    for shape in SHAPES {
        let table = gen::slow_table(shape);
        // The Rust needs the stack; ours is content with it.
        timed::on_large_stack(|| row(shape.name, &table));
    }
}

fn row(name: &str, table: &Table) {
    let mut canon = Canon::new(Form::Plain);
    let text = table.to_text();
    let listing = libraries::listing(&mut canon, &text).expect("its listing fits");
    let sizes = [table.entries.len(), text.len()].map(|size| size.to_string());
    let (ours, rust) = measure(&mut canon, &text);
    let cells = sizes.into_iter().chain([outcome(&listing), told(ours[0])]);
    let cells = cells.chain(libraries::cells(ours));
    let beside = match oracle::text_at_hand() {
        true => [told(rust), ratio(ours[0], rust)],
        false => ["-".to_string(), "-".to_string()],
    };
    let cells = cells
        .chain(beside)
        .chain([told(of_many(&mut canon, table))]);
    print_row(name, cells);
}

/// What its root comes to.
fn outcome(listing: &[u8]) -> String {
    let blocks = lines::blocks(listing);
    match lines::root_refusal(blocks[0]) {
        Some(number) => format!("refused {number}"),
        None => format!("{} nodes", blocks[0].split(|&b| b == b'\n').count() - 2),
    }
}

/// In turn, so that a busy machine slows all.
fn measure(canon: &mut Canon, text: &[u8]) -> (Each<Duration>, Duration) {
    let mut out = vec![0; OUTPUT];
    let mut ours = Each::<Vec<Duration>>::default();
    let mut rust = Vec::new();
    for _ in 0..RUNS {
        for (library, ours) in Library::ALL.into_iter().zip(&mut ours) {
            ours.push(time(|| {
                let _ = black_box(canon.bare_of(library, black_box(text), &mut out));
            }));
        }
        rust.push(time(|| {
            let _ = black_box(rust_listing(black_box(text)));
        }));
    }
    (ours.map(median), median(rust))
}

/// The same root so many times in one call.
fn of_many(canon: &mut Canon, table: &Table) -> Duration {
    let mut table = table.clone();
    table.roots = table.roots.repeat(ROOTS);
    let text = table.to_text();
    let mut out = vec![0; OUTPUT];
    time(|| {
        let _ = black_box(canon.bare(black_box(&text), &mut out));
    })
}
