//! Damaged inputs: listings, tables, and tables that differ in another line
//! than an entry's.

use oracle::rng::Rng;
use oracle::{damage, Table};

use crate::calls::Input;
use crate::input::changes::{change, line_bounds, repeat_line, swap_lines};
use crate::input::edits;

pub struct Kind {
    pub name: &'static str,
    /// Changes an input whose tables are the oracle's.
    pub make: fn(&mut Rng, &mut Input, &[Table; 2]),
}

pub const KINDS: [Kind; 7] = [
    Kind {
        name: "listing, bytes",
        make: |rng, input, _| {
            for _ in 0..rng.pick(&[1, 1, 1, 2, 3]) {
                change_bytes(rng, &mut input.listing);
            }
        },
    },
    Kind {
        name: "listing, lines",
        make: |rng, input, _| change_lines(rng, &mut input.listing),
    },
    Kind {
        name: "listing, altered and changed",
        make: |rng, input, _| {
            input.listing = edits::of_listing(rng, &input.listing);
            change_bytes(rng, &mut input.listing);
        },
    },
    Kind {
        name: "old table damaged",
        make: |rng, input, _| damage_table(rng, &mut input.old),
    },
    Kind {
        name: "new table damaged",
        make: |rng, input, _| damage_table(rng, &mut input.new),
    },
    Kind {
        name: "both tables and the listing",
        make: |rng, input, _| {
            for text in [&mut input.old, &mut input.new] {
                damage_table(rng, text);
            }
            change_lines(rng, &mut input.listing);
        },
    },
    Kind {
        name: "another line than an entry's",
        make: |rng, input, [old, new]| match rng.chance(1, 2) {
            true => input.new = edits::of_other_lines(rng, new).to_text(),
            false => input.old = edits::of_other_lines(rng, old).to_text(),
        },
    },
];

/// Lines that a listing may have, and some that it may not.
const LINES: &[u8] = b"root\t0\t+\t1\t2\t0\t0\t1\n0\tprim\t0\n1\tlist\t0\n2\tset\t0:0\t-\t1\t-\n\
    3\tunion\t0,1\n4\tset\t-\t0\t0\t0\nrefused\t0\t-\t6\n5\tnamed\t0\t0\nanswers\t1\n6\tinter\t-\n";

/// A change of bytes, or a line dropped.
fn change_bytes(rng: &mut Rng, text: &mut Vec<u8>) {
    change(rng, text, |_| LINES.to_vec(), drop_line);
}

/// Lines dropped, doubled, swapped, or the text cut off.
fn change_lines(rng: &mut Rng, text: &mut Vec<u8>) {
    match rng.below(4) {
        _ if text.is_empty() => {}
        0 => drop_line(rng, text),
        1 => repeat_line(rng, text),
        2 => swap_lines(rng, text),
        _ => text.truncate(rng.below(text.len() + 1)),
    }
}

fn drop_line(rng: &mut Rng, text: &mut Vec<u8>) {
    let (from, to) = rng.pick(&line_bounds(text));
    text.drain(from..to);
}

/// Another table, which is damaged, or this one with a change.
fn damage_table(rng: &mut Rng, text: &mut Vec<u8>) {
    match rng.chance(1, 4) {
        true => *text = damage::table(rng.draw()).1,
        false => change_bytes(rng, text),
    }
}
