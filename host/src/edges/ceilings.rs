//! Refusal 2: the ceilings of a table.

use super::edge::{Edges, Expect};
use super::texts::{long_names, BUDGET};
use crate::calls::OUTPUT;
use crate::input::draft::{tabs, Draft};

pub fn text_length(edges: &mut Edges) {
    // 9 bytes, 251 lines of 261 and one of 16.
    let text = long_names(10);
    assert_eq!(text.len(), 65_536, "the longest text");
    edges.accepted("text of 65,536 bytes", text);
    edges.refused("text of 65,537 bytes", long_names(11), 2, 0);
    edges.refused("65,536 bytes of nothing", vec![b'x'; 65_536], 1, 1);
    edges.refused("65,537 bytes of nothing", vec![b'x'; 65_537], 2, 0);
    edges.refused("65,537 line feeds", vec![b'\n'; 65_537], 2, 0);
    let frozen = [tabs("budget>1\nfrozen\n"), vec![b'x'; 65_600]].concat();
    edges.refused("too long, and frozen before", frozen, 2, 0);
}

pub fn ceilings(edges: &mut Edges) {
    edges.accepted("1,024 names", Draft::with_names(1_024).text());
    edges.refused("1,025 names", Draft::with_names(1_025).text(), 2, 1_026);
    for (what, byte) in [("", "y"), (", escaped", "\\00")] {
        let name = |count| tabs(&format!("{BUDGET}name>{}\n", byte.repeat(count)));
        edges.accepted(&format!("name of 255 bytes{what}"), name(255));
        edges.refused(&format!("name of 256 bytes{what}"), name(256), 2, 2);
    }
    let prims = |count| tabs(&format!("{BUDGET}{}", "prim>0\n".repeat(count)));
    edges.accepted("2,048 entries", prims(2_048));
    edges.refused("2,049 entries", prims(2_049), 2, 2_050);
    let pairs = |count| tabs(&format!("{BUDGET}{}", "pair>0>9\n".repeat(count)));
    edges.accepted("2,048 pairs", pairs(2_048));
    edges.refused("2,049 pairs", pairs(2_049), 2, 2_050);
    let marks = |count| tabs(&format!("{BUDGET}{}", "mark>7\n".repeat(count)));
    edges.accepted("512 marks", marks(512));
    edges.refused("513 marks", marks(513), 2, 514);
    let roots = |count| tabs(&format!("{BUDGET}prim>5\n{}", "root>0>+\n".repeat(count)));
    let each = "root>0>+>1>1>0>0>1\n0>prim>5\n";
    let listing = tabs(&format!("answers>64\n{}", each.repeat(64)));
    edges.add("64 roots", roots(64), OUTPUT, Expect::Listing(listing));
    edges.refused("65 roots", roots(65), 2, 67);
    ids_and_keys(edges);
}

fn ids_and_keys(edges: &mut Edges) {
    let zeros = |count: usize| vec!["0"; count].join(",");
    for (what, front, back) in [("lower", "", ">-"), ("upper", "->", "")] {
        let var = |count| tabs(&format!("{BUDGET}var>{front}{}{back}\n", zeros(count)));
        edges.accepted(&format!("8,192 {what} bounds"), var(8_192));
        edges.refused(&format!("8,193 {what} bounds"), var(8_193), 2, 2);
    }
    // A field counts 2, a dyn 1, an optional key 1: 4 for each set.
    let sets = |count, last: &str| {
        let sets = "set>0:0>0>1>0\n".repeat(count);
        tabs(&format!("{BUDGET}name>a\n{sets}{last}"))
    };
    edges.accepted("8,192 ids and keys of sets", sets(2_048, ""));
    edges.refused(
        "8,193, a bound more",
        sets(2_047, "var>0,0,0>0,0\n"),
        2,
        2_050,
    );
    edges.accepted("8,192 with bounds", sets(2_047, "var>0,0>0,0\n"));
    let last = |line: &str| {
        let bounds = zeros(8_190);
        tabs(&format!("{BUDGET}name>a\nvar>{bounds}>-\n{line}"))
    };
    edges.accepted("8,190 and a lambda", last("fn>0>0\n"));
    edges.accepted("8,190 and two of named", last("named>0>0\nnamed>0>0\n"));
    edges.refused(
        "8,190 and three of named",
        last(&"named>0>0\n".repeat(3)),
        2,
        6,
    );
    edges.refused("8,190 and a field and a dyn", last("set>0:0>0>0>-\n"), 2, 4);
    edges.accepted("8,190 and a field", last("set>0:0>->0>-\n"));
    edges.refused("8,190, a field, an optional", last("set>0:0>->0>0\n"), 2, 4);
    edges.accepted("8,190 and a neg and a list", last("neg>0\nlist>0\n"));
    edges.refused(
        "8,190, neg, list, neg",
        last("neg>0\nlist>0\nneg>0\n"),
        2,
        6,
    );
    edges.accepted("8,190, tyvars and prims", last("fn>0>0\ntyvar>7\nprim>1\n"));
    edges.refused("8,190, a list, a union", last("list>0\nunion>0>0\n"), 2, 5);
    edges.refused("8,190, a list, an inter", last("list>0\ninter>0>0\n"), 2, 5);
}
