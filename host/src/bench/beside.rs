//! Our time for each root beside the Rust's.

use std::hint::black_box;
use std::time::Duration;

use oracle::{gen, listing, reader, Form, RootAnswer, Table};

use super::clock::{median, ratio, time, told, RUNS};
use super::libraries::{self, Each};
use super::parts::joined;
use crate::calls::{Canon, Library, OUTPUT};
use crate::report::rows::{print_heads, print_row};

pub const SIZES: [usize; 3] = [50, 500, 2_000];
/// Tables of each profile and size.
pub const TABLES: u64 = 3;

/// Medians of one table.
struct Times {
    roots: usize,
    ours: Each<Duration>,
    whole: Duration,
    run: Duration,
}

pub fn run() {
    if !oracle::text_at_hand() {
        println!("bench: the Rust text is not at hand, skipped");
        return;
    }
    println!("Processor time for each root, from medians of {RUNS} runs.");
    for single in [false, true] {
        println!();
        match single {
            false => println!("Up to 64 roots in a call:"),
            true => println!("One root in a call:"),
        }
        println!();
        // The Rust needs the stack; ours is content with it.
        timed::on_large_stack(|| table(single));
    }
}

fn table(single: bool) {
    let heads = [
        "profile",
        "entries",
        "roots",
        "ours",
        "Rust",
        "Rust, run only",
        "ours / Rust",
        "ours / run only",
    ];
    let earlier = libraries::heads(["before", "ours / before"]);
    print_heads(&[&heads[..], &earlier].concat());
    let mut canon = Canon::new(Form::Plain);
    for size in SIZES {
        let mut all = Vec::new();
        for (number, profile) in gen::PROFILES.iter().enumerate() {
            let tables: Vec<Table> = (0..TABLES)
                .filter_map(|part| joined(number, size, part, single))
                .collect();
            let times: Vec<Times> = tables
                .iter()
                .filter_map(|table| measure(&mut canon, table))
                .collect();
            row(profile.name, size, &times);
            all.extend(times);
        }
        row("all", size, &all);
    }
}

fn row(name: &str, size: usize, times: &[Times]) {
    let roots: usize = times.iter().map(|t| t.roots).sum();
    if roots == 0 {
        return;
    }
    let per_root = |time: &dyn Fn(&Times) -> Duration| {
        let sum: Duration = times.iter().map(time).sum();
        sum / roots as u32
    };
    let each: Each<Duration> = std::array::from_fn(|i| per_root(&|t| t.ours[i]));
    let (ours, whole, run) = (each[0], per_root(&|t| t.whole), per_root(&|t| t.run));
    let cells = [
        size.to_string(),
        roots.to_string(),
        told(ours),
        told(whole),
        told(run),
        ratio(ours, whole),
        ratio(ours, run),
    ];
    print_row(name, cells.into_iter().chain(libraries::cells(each)));
}

/// Ours and theirs in turn, so that a busy machine slows all. Each library comes
/// after the Rust, so that none finds its memory warmer than another.
fn measure(canon: &mut Canon, table: &Table) -> Option<Times> {
    let text = table.to_text();
    let mut out = vec![0; OUTPUT];
    // Once beforehand; a table that is refused is left out, and the text that
    // is timed answers as the oracle does.
    libraries::listing(canon, &text)?;
    let written = |answers: Vec<RootAnswer>| listing::write(Form::Plain, &answers);
    let theirs = oracle::answers_of(Form::Plain, table).ok().map(written);
    assert_eq!(timed::answers(table).map(written), theirs);
    let mut ours = Each::<Vec<Duration>>::default();
    let (mut whole, mut run) = (Vec::new(), Vec::new());
    for _ in 0..RUNS {
        for (library, ours) in Library::ALL.into_iter().zip(&mut ours) {
            ours.push(time(|| {
                let _ = black_box(canon.bare_of(library, black_box(&text), &mut out));
            }));
            whole.push(time(|| {
                let _ = black_box(rust_listing(black_box(&text)));
            }));
            run.push(time(|| {
                let _ = black_box(timed::answers(black_box(table)));
            }));
        }
    }
    Some(Times {
        roots: table.roots.len(),
        ours: ours.map(median),
        whole: median(whole),
        run: median(run),
    })
}

/// The Rust, from text to listing.
pub fn rust_listing(text: &[u8]) -> Option<Vec<u8>> {
    let table = reader::read(text).ok()?;
    let answers = timed::answers(&table)?;
    Some(listing::write(Form::Plain, &answers))
}
