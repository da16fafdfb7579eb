//! The tables of document 01's worked examples, as far as they are accepted,
//! and after them one of request 2's, with two budgets. Tabs are written `>`
//! there and here.

use std::fmt::Write as _;

pub struct Example {
    pub name: &'static str,
    pub table: Vec<u8>,
}

const FULL: &str = "budget>4294967295\n";

/// All of them, in 01's order.
pub fn all() -> Vec<Example> {
    vec![
        short("K1", "var>2>-\nfn>0>0\nprim>0\nroot>1>+\n"),
        short("K2", "var>->2\nfn>0>2\nprim>0\nroot>1>+\n"),
        short("K3", "var>1>-\nprim>0\nroot>0>-\n"),
        short("K3 marked", "var>1>-\nprim>0\nmark>0\nroot>0>-\n"),
        short("K4", "prim>0\nneg>0\nunion>0>1\nroot>2>+\nroot>2>-\n"),
        short(
            "K5",
            "prim>0\nneg>0\nprim>3\nunion>1>2\nunion>0>3\nroot>4>+\n",
        ),
        short("K6 16 bounds", &repeated_bound(16)),
        short("K6 17 bounds", &repeated_bound(17)),
        short("K7 64 bounds", &equal_bounds(64)),
        short("K7 65 bounds", &equal_bounds(65)),
        short(
            "K8",
            "var>->-\nvar>->-\nvar>->-\npair>0>1\npair>1>2\nroot>0>+\n",
        ),
        short("K9", "tyvar>9\ntyvar>8\nunion>0>1\nroot>2>+\n"),
        short(
            "K10 Int Float",
            "prim>0\nprim>1\ninter>0>1\nroot>2>+\nroot>2>-\n",
        ),
        short(
            "K10 Int Number",
            "prim>0\nprim>2\ninter>0>1\nroot>2>+\nroot>2>-\n",
        ),
        example("K11 511", format!("budget>511\n{}", operation_512())),
        example("K11 512", format!("budget>512\n{}", operation_512())),
        short("K12 95 lists", &nested_lists(95)),
        example("bailed 511", format!("budget>511\n{}", spent())),
        example("bailed 600", format!("budget>600\n{}", spent())),
    ]
}

fn short(name: &'static str, lines: &str) -> Example {
    example(name, format!("{FULL}{lines}"))
}

fn example(name: &'static str, text: String) -> Example {
    Example {
        name,
        table: text.replace('>', "\t").into_bytes(),
    }
}

fn joined(ids: impl Iterator<Item = u32>) -> String {
    let ids: Vec<String> = ids.map(|id| id.to_string()).collect();
    ids.join(",")
}

/// A variable with the same lower bound `count` times.
fn repeated_bound(count: u32) -> String {
    let ids = joined((0..count).map(|_| 1));
    format!("var>{ids}>-\nprim>0\nroot>0>+\n")
}

/// A variable with `count` entries `prim 0` as lower bounds.
fn equal_bounds(count: u32) -> String {
    let ids = joined(1..=count);
    let prims = "prim>0\n".repeat(count as usize);
    format!("var>{ids}>-\n{prims}root>0>+\n")
}

/// A lambda whose body is visited by operation 512. Each of 29 levels takes
/// 17 operations (a list, a variable, 15 repeated bounds), the prim below
/// them 1, the 16 lists around them 16, the lambda 1: 511.
fn operation_512() -> String {
    let mut lines = String::from("prim>0\nprim>3\n");
    let mut last = 1;
    for level in 0..29 {
        let bounds = joined((0..16).map(|_| last));
        let var = 2 + 2 * level;
        let _ = write!(lines, "var>{bounds}>{bounds}\nlist>{var}\n");
        last = var + 1;
    }
    for _ in 0..16 {
        let _ = writeln!(lines, "list>{last}");
        last += 1;
    }
    let _ = write!(lines, "fn>{last}>0\nroot>{}>+\n", last + 1);
    lines
}

/// Two roots: a variable in both places, so that there is a second pass; a
/// chain of variables that takes more than 512 operations; K1. The first root's
/// variable is the chain's 17th, where a second pass ends; the other's is its
/// last.
fn spent() -> String {
    let mut lines =
        String::from("fn>1>2\nfn>24>24\nfn>8>3\nfn>4>4\nvar>5>-\nprim>0\nfn>7>2\nfn>40>40\n");
    for next in 9..=40 {
        let bounds = joined((0..16).map(|_| next));
        let _ = writeln!(lines, "var>{bounds}>-");
    }
    lines.push_str("var>->-\nroot>0>+\nroot>6>+\n");
    lines
}

/// A prim in `count` lists: one key for each and one for the prim.
pub fn nested_lists(count: u32) -> String {
    let mut lines = String::from("prim>0\n");
    for inner in 0..count {
        let _ = writeln!(lines, "list>{inner}");
    }
    let _ = writeln!(lines, "root>{count}>+");
    lines
}
