//! Refusals 3 and 4: ids and keys in range, names and keys that ascend.

use super::edge::{Edges, Expect};
use super::texts::BUDGET;
use crate::calls::OUTPUT;
use crate::input::draft::tabs;

/// Refusal 3: the last number in range and the first out of it.
pub fn ranges(edges: &mut Edges) {
    // Two names and three entries, the last of which is the one looked at.
    let with = |line: &str| {
        let most = format!("{BUDGET}name>a\nname>b\nprim>0\nprim>0\n{line}\n");
        tabs(&most)
    };
    for (inside, outside) in [
        ("var>2>-", "var>3>-"),
        ("var>->2", "var>->3"),
        ("var>0,2>-", "var>0,3>-"),
        ("var>->2,0", "var>->3,0"),
        ("list>2", "list>3"),
        ("list>0", "list>4294967295"),
        ("fn>2>0", "fn>3>0"),
        ("fn>0>2", "fn>0>3"),
        ("set>0:2>->0>-", "set>0:3>->0>-"),
        ("set>1:0>->0>-", "set>2:0>->0>-"),
        ("set>0:0,1:2>->0>-", "set>0:0,1:3>->0>-"),
        ("set>->2>0>-", "set>->3>0>-"),
        ("set>->->0>1", "set>->->0>2"),
        ("set>->->0>0,1", "set>->->0>0,2"),
        ("neg>2", "neg>3"),
        ("named>1>2", "named>2>2"),
        ("named>0>2", "named>0>3"),
        ("inter>2>2", "inter>2>3"),
        ("union>2>2", "union>3>2"),
    ] {
        edges.accepted(inside, with(inside));
        edges.refused(outside, with(outside), 3, 6);
    }
    edges.accepted(
        "an entry far ahead",
        tabs("budget>1\nlist>2\nprim>0\nprim>0\n"),
    );
    let root = |id| tabs(&format!("{BUDGET}prim>0\nprim>4\nroot>{id}>-\n"));
    let listing = tabs("answers>1\nroot>1>->1>1>0>0>1\n0>prim>4\n");
    edges.add("root 1 of 2", root(1), OUTPUT, Expect::Listing(listing));
    edges.refused("root 2 of 2", root(2), 3, 4);
    edges.refused("root without entries", tabs("budget>1\nroot>0>+\n"), 3, 2);
    edges.refused("key without names", tabs("budget>1\nset>->->0>0\n"), 3, 2);
}

/// Refusal 4.
pub fn ascending(edges: &mut Edges) {
    // Unescaped, 0x00 comes before 0x5b; as text it would come after.
    for (first, second) in [
        ("", "-"),
        ("a", "b"),
        ("a", "ab"),
        ("\\00", "["),
        ("Z", "\\5c"),
        ("\\5c", "]"),
        ("~", "\\7f"),
        ("a\\00", "a\\01"),
    ] {
        let text = format!("{BUDGET}name>{first}\nname>{second}\n");
        edges.accepted(&format!("names {first:?} {second:?}"), tabs(&text));
        let text = format!("{BUDGET}name>{second}\nname>{first}\n");
        edges.last(&format!("names {second:?} {first:?}"), &text, 4);
        let text = format!("{BUDGET}name>{first}\nname>{first}\n");
        edges.last(&format!("names {first:?} twice"), &text, 4);
    }
    let set = |rest: &str| format!("{BUDGET}name>a\nname>b\nname>c\nset>{rest}\n");
    for rest in ["0:0,1:0,2:0>->0>-", "0:0,2:0>->0>1", "->->0>0,1,2"] {
        edges.accepted(&format!("keys {rest}"), tabs(&set(rest)));
    }
    for rest in [
        "0:0,0:0>->0>-",
        "1:0,0:0>->0>-",
        "0:0,2:0,1:0>->0>-",
        "->->0>0,0",
        "->->0>2,1",
        "->->0>0,2,2",
        "0:0>->0>1,0",
    ] {
        edges.last(&format!("keys {rest}"), &set(rest), 4);
    }
}
