//! Refusal 10, and orders between two faults.

use super::edge::{input, Edges};

pub fn differing_lines(edges: &mut Edges) {
    let table = "budget>1\nname>a\nprim>0\nprim>0\npair>0>1\nmark>0\nroot>0>+\nroot>1>-\n";
    for (from, to) in [
        ("budget>1", "budget>2"),
        ("name>a", "name>b"),
        ("name>a\n", ""),
        ("name>a\n", "name>a\nname>b\n"),
        ("prim>0\npair", "prim>0\nprim>0\npair"),
        ("pair>0>1", "pair>1>0"),
        ("pair>0>1\n", ""),
        ("mark>0", "mark>1"),
        ("mark>0\n", "mark>0\nmark>0\n"),
        ("root>0>+", "root>0>-"),
        ("root>0>+", "root>1>+"),
        ("root>1>-\n", ""),
        ("root>0>+\nroot>1>-", "root>1>-\nroot>0>+"),
    ] {
        let other = table.replacen(from, to, 1);
        let name = format!("{from} and {to}");
        edges.refused(&name, &input(table, &other, "x"), 10, 0);
        edges.refused(&name, &input(&other, table, "x"), 10, 0);
    }
}

/// Two faults and more: the old table's, the new table's, 10, 11.
pub fn orders(edges: &mut Edges) {
    let good = "budget>1\nprim>0\nroot>0>+\n";
    let long = format!("budget>1\n{}", "x".repeat(65_536));
    for (name, old, new, number, line) in [
        ("old 3, new 1", "budget>1\nlist>1\n", "", 3, 2),
        ("old 5, new too long", "budget>1\nfrozen\n", &long, 5, 2),
        ("old too long, new 1", &long, "", 2, 0),
        ("new too long, 10", "budget>2\n", &long, 2, 0),
        ("new 4, 10", good, "budget>2\nname>b\nname>a\n", 4, 3),
        ("10, 11", good, "budget>2\nprim>0\nroot>0>+\n", 10, 0),
        ("11, 12", good, good, 11, 1),
    ] {
        edges.refused(name, &input(old, new, "x"), number, line);
    }
}
