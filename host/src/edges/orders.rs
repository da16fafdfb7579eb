//! Two faults in one table: which of them is told.

use super::edge::{Edges, Expect};
use super::texts::{long_names, BUDGET};
use crate::input::draft::tabs;

/// On one line 1 before 2 before 4 before 5.
pub fn on_a_line(edges: &mut Edges) {
    let names: String = (0..1_024).map(|i| format!("name>{i:04}\n")).collect();
    let names = &format!("{BUDGET}{names}");
    let almost = &format!("{BUDGET}{}", "prim>0\n".repeat(2_047));
    let prims = &format!("{almost}prim>0\n");
    let bounds = &format!("{BUDGET}name>a\nvar>{}>-\n", vec!["0"; 8_192].join(","));
    let roots = &format!("{BUDGET}prim>0\n{}", "root>0>+\n".repeat(64));
    let long = &format!("name>{}", "z".repeat(256));
    let [long_and_escape, long_behind] = [format!("{long}\\\n"), format!("name>~\n{long}\n")];
    for (name, before, lines, number) in [
        ("1 before 2, 1,025th name", names, "name>\\\n", 1),
        ("1 before 2, 2,049th entry", prims, "prim>32\n", 1),
        ("1 before 2, frozen field", prims, "frozen>0\n", 1),
        ("1 before 2, no line feed", prims, "prim>0", 1),
        ("1 before 2, ids", bounds, "set>0:0>->2>-\n", 1),
        ("1 before 2, 65th root", roots, "root>0>*\n", 1),
        ("1 before 2, order", roots, "mark>0\n", 1),
        ("2 before 4, 1,025th name", names, "name>0000\n", 2),
        ("2 before 4, ids", bounds, "set>1:0,0:0>->0>-\n", 2),
        ("2 before 4, optional", bounds, "set>->->0>0,0\n", 2),
        ("2 before 4, entry", prims, "set>->->0>0,0\n", 2),
        ("2 before 5", prims, "frozen\n", 2),
        ("5", almost, "frozen\n", 5),
        ("2 before 3, entry", prims, "list>9999\n", 2),
        ("2 before 3, root", roots, "root>9>+\n", 2),
    ] {
        edges.last(name, &format!("{before}{lines}"), number);
    }
    for (name, lines, number) in [
        ("1 before 2, long name", &long_and_escape[..], 1),
        ("1 before 4, names", "name>b\nname>a\\\n", 1),
        ("1 before 4, keys", "set>1:0,0:0>->2>-\n", 1),
        ("1 before 4, keys, end", "set>->->0>1,0,\n", 1),
        ("1 before 5", "frozen>1\n", 1),
        ("1 before 5, no line feed", "frozen", 1),
        ("1 before 5, order", "mark>0\nfrozen\n", 1),
        ("2 before 4, long name", &long_behind, 2),
        ("4 before 3", "set>9:9,8:9>->0>-\n", 4),
    ] {
        edges.last(name, &format!("{BUDGET}{lines}"), number);
    }
}

/// 1, 2, 4 and 5 on the earliest line; then 3 on the earliest.
pub fn of_lines(edges: &mut Edges) {
    let long = format!("name>{}\n", "z".repeat(256));
    for (name, lines, number, line) in [
        ("5, then 1", "frozen\nprim>32\n", 5, 2),
        ("1, then 5", "prim>32\nfrozen\n", 1, 2),
        ("4, then 1", "name>b\nname>a\nname>\\\n", 4, 3),
        ("1, then 4", "name>\\\nname>b\nname>a\n", 1, 2),
        ("2, then 1", &format!("{long}\n"), 2, 2),
        ("4, then 2", &format!("name>b\nname>a\n{long}"), 4, 3),
        ("4, then 5", "name>a\nset>->->0>0,0\nfrozen\n", 4, 3),
        ("5, then 4", "name>a\nfrozen\nset>->->0>0,0\n", 5, 3),
        ("5 twice", "prim>0\nfrozen\nfrozen\n", 5, 3),
        ("3, then 1", "list>7\nroot>0\n", 1, 3),
        ("3, then 4", "list>7\nset>->->0>1,0\n", 4, 3),
        ("3, then 5", "list>7\nfrozen\n", 5, 3),
        ("3, no line feed at the end", "list>7\nroot>0>+", 1, 3),
        ("3 twice", "prim>0\nlist>7\nlist>8\n", 3, 3),
        (
            "3 in an entry and a root",
            "prim>0\nlist>7\nroot>9>+\n",
            3,
            3,
        ),
        (
            "3 in two roots",
            "prim>0\nroot>0>+\nroot>9>+\nroot>8>-\n",
            3,
            4,
        ),
        ("3 of a name, then of an id", "named>0>0\nlist>9\n", 3, 2),
    ] {
        edges.refused(name, tabs(&format!("{BUDGET}{lines}")), number, line);
    }
    let many = format!("{BUDGET}list>7\n{}", "mark>0\n".repeat(513));
    edges.refused("3, then 2", tabs(&many), 2, 515);
    let three = tabs("budget>1\nlist>7\nroot>0>+\n");
    edges.add("3 before 12", three, 0, Expect::Refused(3, 2));
    edges.add("1 before 12", Vec::new(), 0, Expect::Refused(1, 1));
    edges.add("2 before 12", long_names(11), 0, Expect::Refused(2, 0));
}
