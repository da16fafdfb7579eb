//! Texts that several edges are made of.

use std::fmt::Write as _;

use oracle::listing::heading;
use oracle::Form;

use crate::input::draft::{tabs, Draft};
use crate::lines;

pub const BUDGET: &str = "budget>1\n";

/// Document 01's first example.
pub fn k1() -> Vec<u8> {
    tabs("budget>4294967295\nvar>2>-\nfn>0>0\nprim>0\nroot>1>+\n")
}

pub const K1_LISTING: &str =
    "answers>1\nroot>1>+>2>9>0>0>4\n0>tyvar>0\n1>prim>0\n2>union>0,1\n3>fn>0>2\n";

/// A listing in a form, by its plain one.
pub fn in_form(form: Form, plain: &str) -> Vec<u8> {
    let plain = tabs(plain);
    match form {
        Form::Plain => plain,
        Form::Numbered => lines::numbered(&plain),
    }
}

/// Names of 255 bytes and one of `last` bytes.
pub fn long_names(last: usize) -> Vec<u8> {
    let mut text = tabs(BUDGET);
    for number in 0..251 {
        text.extend(format!("name\t{number:04}{}\n", "x".repeat(251)).into_bytes());
    }
    text.extend(format!("name\t{}\n", "z".repeat(last)).into_bytes());
    text
}

/// The lines of a root that is `depth` lists around a prim.
fn nested_lines(id: u32, code: u32, depth: u32) -> String {
    let nodes = depth + 1;
    let mut text = format!("root>{id}>+>1>{nodes}>0>0>{nodes}\n0>prim>{code}\n");
    for node in 1..=depth {
        let _ = writeln!(text, "{node}>list>{}", node - 1);
    }
    text
}

/// A table whose listing in a form has `length` bytes: roots in two chains of
/// lists, whose lines are of slightly different lengths.
pub fn of_length(form: Form, length: usize) -> (Vec<u8>, Vec<u8>) {
    let mut draft = Draft::default();
    let chains = [0, 3].map(|code| {
        let prim = draft.prim(code);
        let mut ids = vec![prim];
        ids.extend(draft.lists(prim, 95));
        let lines = (0..).zip(ids);
        let lines = lines.map(|(depth, id)| (id, nested_lines(id, code, depth)));
        lines.collect::<Vec<_>>()
    });
    let mut listing = heading(form, 64);
    for (chain, depth, count) in parts_of(length - listing.len(), &chains) {
        let (id, lines) = &chains[chain][depth];
        for _ in 0..count {
            draft.root(*id);
            listing.push_str(lines);
        }
    }
    (draft.text(), tabs(&listing))
}

/// 64 roots with lines of `length` bytes: chain, depth and how often.
fn parts_of(length: usize, chains: &[Vec<(u32, String)>; 2]) -> [(usize, usize, usize); 4] {
    for depth in 60..=95 {
        for second in 0..=62 {
            for last in 0..=95 {
                let parts = [
                    (0, depth, 62 - second),
                    (1, depth, second),
                    (0, 95, 1),
                    (1, last, 1),
                ];
                let sizes = parts.map(|(chain, depth, count)| chains[chain][depth].1.len() * count);
                if sizes.iter().sum::<usize>() == length {
                    return parts;
                }
            }
        }
    }
    panic!("no roots with lines of {length} bytes")
}
