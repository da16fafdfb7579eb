//! Our time for ladders beside the Rust's, level by level. The Rust negates a
//! shared part once for each path to it: twice as often with each level.

use std::hint::black_box;
use std::time::Duration;

use oracle::Form;

use super::beside::rust_listing;
use super::clock::{median, time, told, RUNS};
use super::libraries::{self, Each};
use super::subject::{beside_rust, Subject};
use crate::calls::{Canon, Library, OUTPUT};
use crate::input::ladders::ladder;
use crate::report::rows::{print_heads, print_row};

/// The last is the highest that 96 keys reach.
const LEVELS: [u32; 5] = [5, 10, 20, 30, 46];

/// Medians of one ladder.
struct Times {
    ours: Each<Duration>,
    /// The same table without its root: reading it, and wiping the scratch.
    rootless: Duration,
    /// Where it returns.
    rust: Option<Duration>,
}

pub fn run() {
    println!("Processor time of a call on a ladder, medians of {RUNS} runs:");
    println!();
    let heads = [
        "levels",
        "entries",
        "nodes",
        "ours",
        "ours, without the root",
        "the root, per node",
        "Rust",
        "ours / Rust",
    ];
    let earlier = libraries::heads(["before", "ours / before"]);
    print_heads(&[&heads[..], &earlier].concat());
    for levels in LEVELS {
        // The Rust needs the stack; ours is content with it.
        timed::on_large_stack(|| row(levels));
    }
}

fn row(levels: u32) {
    let mut canon = Canon::new(Form::Plain);
    let ladder = Subject::new(&mut canon, ladder(levels));
    let times = measure(&mut canon, &ladder);
    let ours = times.ours[0];
    let of_root = ours.saturating_sub(times.rootless) / ladder.nodes as u32;
    let told_times = [
        told(ours),
        told(times.rootless),
        format!("{} ns", of_root.as_nanos()),
    ];
    let cells = ladder.sizes().into_iter().chain(told_times);
    let cells = cells.chain(beside_rust(ours, times.rust));
    let cells = cells.chain(libraries::cells(times.ours));
    print_row(&levels.to_string(), cells);
}

/// In turn, so that a busy machine slows all.
fn measure(canon: &mut Canon, ladder: &Subject) -> Times {
    let mut rootless_table = ladder.table.clone();
    rootless_table.roots.clear();
    let rootless_text = rootless_table.to_text();
    let mut out = vec![0; OUTPUT];
    let mut ours = Each::<Vec<Duration>>::default();
    let (mut rootless, mut rust) = (Vec::new(), Vec::new());
    for _ in 0..RUNS {
        for (library, ours) in Library::ALL.into_iter().zip(&mut ours) {
            ours.push(time(|| {
                let _ = black_box(canon.bare_of(library, black_box(&ladder.text), &mut out));
            }));
            rootless.push(time(|| {
                let _ = black_box(canon.bare(black_box(&rootless_text), &mut out));
            }));
            if ladder.returns {
                rust.push(time(|| {
                    let _ = black_box(rust_listing(black_box(&ladder.text)));
                }));
            }
        }
    }
    Times {
        ours: ours.map(median),
        rootless: median(rootless),
        rust: ladder.returns.then(|| median(rust)),
    }
}
