//! Refusal 1: the form of a line and the order of lines.

use super::edge::Edges;
use super::texts::BUDGET;
use crate::input::draft::tabs;

/// Refusal 1, each at the last line.
pub fn form(edges: &mut Edges) {
    edges.refused("no bytes", Vec::new(), 1, 1);
    edges.accepted("a budget line alone", tabs("budget>0\n"));
    edges.accepted("the greatest budget", tabs("budget>4294967295\n"));
    for line in [
        "\n",
        "budget>4294967296\n",
        "budget>18446744073709551617\n",
        "budget>00\n",
        "budget>\n",
        "budget>+1\n",
        "budget\n",
        "budget>1>\n",
        "budget>1",
        "budget>1\r\n",
        "Budget>1\n",
        " budget>1\n",
        "prim>0\n",
        "name>a\n",
        "root>0>+\n",
    ] {
        edges.last(&format!("first line {line:?}"), line, 1);
    }
    for line in [
        "\n",
        "budget>1\n",
        "var>->-",
        "var>-\n",
        "var>->->-\n",
        "var>,>-\n",
        "var>0,>-\n",
        "var>-,0>-\n",
        "var>>-\n",
        "var>->0 \n",
        "var>4294967296>-\n",
        "prim>32\n",
        "prim>00\n",
        "prim>-\n",
        "prim>4294967295\n",
        "tyvar>4294967296\n",
        "tyvar>-\n",
        "list>-\n",
        "list\n",
        "fn>0\n",
        "fn>0,0\n",
        "fn>0>0>0\n",
        "set>->->2>-\n",
        "set>->->->-\n",
        "set>->->01>-\n",
        "set>->>0>-\n",
        "set>->->0\n",
        "set>->->0>->\n",
        "set>0>->0>-\n",
        "set>0:>->0>-\n",
        "set>:0>->0>-\n",
        "set>0:0:0>->0>-\n",
        "set>0:0,>->0>-\n",
        "set>->0,0>0>-\n",
        "set>->->0>0:0\n",
        "neg>-1\n",
        "named>0\n",
        "named>a>0\n",
        "inter>0\n",
        "union>0>0>0\n",
        "frozen>\n",
        "frozen>0\n",
        "Frozen\n",
        "bool>0\n",
        "answers>0\n",
        "next\n",
        "pair>0\n",
        "pair>0>-\n",
        "pair>0>4294967296\n",
        "mark>0>0\n",
        "mark>-\n",
        "root>0\n",
        "root>0>*\n",
        "root>0>++\n",
        "root>0>\n",
        "root>->+\n",
        "root>0>+>\n",
        "var\t-\t-\x00\n",
    ] {
        edges.last(&format!("line {line:?}"), &format!("{BUDGET}{line}"), 1);
    }
    for (before, after) in [
        ("prim>0\n", "name>a\n"),
        ("pair>0>0\n", "name>a\n"),
        ("pair>0>0\n", "prim>0\n"),
        ("mark>0\n", "prim>0\n"),
        ("mark>0\n", "pair>0>0\n"),
        ("root>0>+\n", "name>a\n"),
        ("root>0>+\n", "prim>0\n"),
        ("root>0>+\n", "pair>0>0\n"),
        ("root>0>+\n", "mark>0\n"),
        ("root>0>+\n", "frozen\n"),
        ("root>0>+\n", "budget>1\n"),
        ("name>a\n", "budget>1\n"),
    ] {
        let name = format!("{after:?} after {before:?}");
        edges.last(&name, &format!("{BUDGET}{before}{after}"), 1);
    }
    let whole = "budget>1\nname>a\nvar>->-\npair>0>0\nmark>0\n";
    edges.accepted("every section but roots", tabs(whole));
    edges.accepted("prim 31", tabs("budget>1\nprim>31\n"));
    edges.accepted("tyvar, pair and mark of any number", {
        let most = "4294967295";
        tabs(&format!(
            "{BUDGET}tyvar>{most}\npair>{most}>{most}\nmark>{most}\n"
        ))
    });
}

pub fn escapes(edges: &mut Edges) {
    for name in [
        "", "-", " ", "\\00", "\\1f", "\\5c", "\\7f", "~", "\u{80}", "a\\0ab",
    ] {
        let text = format!("{BUDGET}name>{name}\n");
        edges.accepted(&format!("name {name:?}"), tabs(&text));
    }
    edges.accepted("a name of byte 255", {
        [tabs("budget>1\nname>"), vec![0xff, b'\n']].concat()
    });
    for name in [
        "\\", "\\0", "a\\", "\\5C", "\\1F", "\\20", "\\5b", "\\5d", "\\7e", "\\80", "\\ff", "\\g0",
        "\\0g", "\\\\", "\\n", "\x00", "\x1f", "\x7f", "a>b", "a\r",
    ] {
        let text = format!("{BUDGET}name>{name}\n");
        edges.last(&format!("name {name:?}"), &text, 1);
    }
}
