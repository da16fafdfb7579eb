//! Our time for roots whose nodes are all in one bucket of the store's index,
//! or have one hash, beside the same roots over other nodes, and beside the
//! Rust's.

use std::hint::black_box;
use std::time::Duration;

use oracle::Form;

use super::beside::rust_listing;
use super::clock::{median, time, told, RUNS};
use super::libraries::{self, Each};
use super::subject::{beside_rust, Subject};
use crate::calls::{Canon, Library, OUTPUT};
use crate::input::buckets::{one_bucket, spread};
use crate::input::hashes::{any_hash, one_hash};
use crate::report::rows::{print_heads, print_row};

/// Nodes that are compared with many others, and a root over so many of them.
struct Nodes {
    name: &'static str,
    counts: &'static [usize],
    close: fn(usize) -> Vec<u8>,
    /// The same root over other nodes.
    apart: fn(usize) -> Vec<u8>,
}

const NODES: [Nodes; 2] = [
    Nodes {
        name: "variables of one bucket",
        // A table has at most 2,048 entries.
        counts: &[250, 500, 1_000, 2_000],
        close: one_bucket,
        apart: spread,
    },
    Nodes {
        name: "unions of one hash",
        // A set has at most 1,024 fields.
        counts: &[150, 300, 600],
        close: one_hash,
        apart: any_hash,
    },
];

/// Medians of one root.
struct Times {
    apart: Duration,
    close: Each<Duration>,
    rust: Option<Duration>,
}

pub fn run() {
    println!("Processor time of a call on nodes of one bucket, medians of {RUNS} runs:");
    println!();
    let heads = [
        "nodes",
        "so many",
        "entries",
        "nodes in all",
        "ours",
        "ours, other nodes",
    ];
    let earlier = libraries::heads(["before", "ours / before"]);
    let rust = ["Rust", "ours / Rust"];
    print_heads(&[&heads[..], &earlier, &rust].concat());
    for nodes in &NODES {
        for &count in nodes.counts {
            // The Rust needs the stack; ours is content with it.
            timed::on_large_stack(|| row(nodes, count));
        }
    }
}

fn row(nodes: &Nodes, count: usize) {
    let mut canon = Canon::new(Form::Plain);
    let [close, apart] =
        [nodes.close, nodes.apart].map(|make| Subject::new(&mut canon, make(count)));
    assert_eq!(close.sizes(), apart.sizes(), "they are of one shape");
    let times = measure(&mut canon, &close, &apart);
    let ours = times.close[0];
    let cells = [count.to_string()].into_iter().chain(close.sizes());
    let cells = cells.chain([told(ours), told(times.apart)]);
    let cells = cells.chain(libraries::cells(times.close));
    let cells = cells.chain(beside_rust(ours, times.rust));
    print_row(nodes.name, cells);
}

/// In turn, so that a busy machine slows all.
fn measure(canon: &mut Canon, close: &Subject, apart: &Subject) -> Times {
    let mut out = vec![0; OUTPUT];
    let mut each = Each::<Vec<Duration>>::default();
    let (mut others, mut rust) = (Vec::new(), Vec::new());
    for _ in 0..RUNS {
        // Each library after the Rust: what ran last has its memory warm.
        for (library, times) in Library::ALL.into_iter().zip(&mut each) {
            times.push(time(|| {
                let _ = black_box(canon.bare_of(library, black_box(&close.text), &mut out));
            }));
            others.push(time(|| {
                let _ = black_box(canon.bare(black_box(&apart.text), &mut out));
            }));
            if close.returns {
                rust.push(time(|| {
                    let _ = black_box(rust_listing(black_box(&close.text)));
                }));
            }
        }
    }
    Times {
        apart: median(others),
        close: each.map(median),
        rust: close.returns.then(|| median(rust)),
    }
}
