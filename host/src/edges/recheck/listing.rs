//! Refusal 11: the form of an old listing.

use super::edge::{Edges, ROOT};

pub fn first_lines(edges: &mut Edges) {
    let rest = format!("{ROOT}1\n0>prim>0\n");
    for first in [
        "",
        "\n",
        "answers\n",
        "answers>0\n",
        "answers>2\n",
        "answers>01\n",
        "answers>1>\n",
        "root>1\n",
    ] {
        edges.listing(&format!("{first}{rest}"), Some(1));
    }
    for (listing, line) in [("", 1), ("answers>1", 1), ("answers>1\n", 2)] {
        edges.listing(listing, Some(line));
    }
    edges.kept("no roots", &edges.same("budget>1\n", "answers>0\n"));
    for (name, surplus) in [("a surplus line", "\n"), ("a surplus byte", "0")] {
        let input = edges.same("budget>1\n", &format!("answers>0\n{surplus}"));
        edges.refused(&format!("no roots, {name}"), &input, 11, edges.line(2));
    }
}

pub fn root_lines(edges: &mut Edges) {
    let node = "0>prim>0\n";
    for line in [
        "root>0>+>1>0>0>0>1",
        "root>0>+>2>4294967295>1>1>1",
        "root>0>+>1>7>0>1>1",
    ] {
        edges.listing(&format!("answers>1\n{line}\n{node}"), None);
    }
    for line in [
        "root>0>->1>1>0>0>1",
        "root>1>+>1>1>0>0>1",
        "root>0>+>0>1>0>0>1",
        "root>0>+>3>1>0>0>1",
        "root>0>+>1>4294967296>0>0>1",
        "root>0>+>1>01>0>0>1",
        "root>0>+>1>1>2>0>1",
        "root>0>+>1>1>0>2>1",
        "root>0>+>1>1>0>0>0",
        "root>0>+>1>1>0>0>4097",
        "root>0>+>1>1>0>0",
        "root>0>+>1>1>0>0>1>",
        "refused>0>+>6>",
        "refused>0>->6",
        "refused>1>+>6",
        "answers>1",
        "0>prim>0",
        "",
    ] {
        edges.listing(&format!("answers>1\n{line}\n{node}"), Some(2));
    }
    for number in 0..=13 {
        let line = (!(6..=9).contains(&number)).then_some(2);
        edges.listing(&format!("answers>1\nrefused>0>+>{number}\n"), line);
    }
    edges.listing(&format!("answers>1\nrefused>0>+>6\n{node}"), Some(3));
}

pub fn node_lines(edges: &mut Edges) {
    for node in [
        "tyvar>4294967295",
        "prim>31",
        "bottom",
        "top",
        "union>-",
        "inter>-",
        "set>->->0>-",
        "set>->->1>0,1",
    ] {
        edges.listing(&format!("answers>1\n{ROOT}1\n0>{node}\n"), None);
    }
    let two = |node: &str| format!("answers>1\n{ROOT}2\n0>prim>0\n1>{node}\n");
    for node in [
        "list>0",
        "neg>0",
        "fn>0>0",
        "named>4294967295>0",
        "union>0",
        "inter>0,0",
        "set>0:0>->1>-",
        "set>1:0>0>0>1",
        "set>0:0,1:0>0>0>0,1",
    ] {
        edges.listing(&two(node), None);
    }
    for node in [
        "list>1",
        "list>00",
        "list",
        "list>0>0",
        "neg>1",
        "fn>0>1",
        "fn>1>0",
        "fn>0",
        "named>0>1",
        "named>4294967296>0",
        "named>0",
        "union>1",
        "union>",
        "union>0,",
        "union>0,,0",
        "union>0,-",
        "inter>0,1",
        "inter>0 ",
        "prim>32",
        "prim>-",
        "prim>+1",
        "tyvar>4294967296",
        "tyvar>",
        "set>0:1>->0>-",
        "set>->1>0>-",
        "set>2:0>->0>-",
        "set>1:0,0:0>->0>-",
        "set>0:0,0:0>->0>-",
        "set>0>->0>-",
        "set>0:>->0>-",
        "set>:0>->0>-",
        "set>->->0>2",
        "set>->->0>1,0",
        "set>->->0>0,0",
        "set>->->2>-",
        "set>->->>-",
        "set>->->0",
        "set>->>0>-",
        "set>>->0>-",
        "var>->-",
        "frozen",
        "extern>0",
        "top>0",
        "bottom>",
        "",
        "\u{e9}",
    ] {
        edges.listing(&two(node), Some(4));
    }
    for (members, line) in [(128, None), (129, Some(4))] {
        let members = vec!["0"; members].join(",");
        for kind in ["union", "inter"] {
            edges.listing(&two(&format!("{kind}>{members}")), line);
        }
    }
}

pub fn numbers_of_nodes(edges: &mut Edges) {
    let nodes = |count: u32| (0..count).map(|i| format!("{i}>top\n")).collect::<String>();
    for (told, count, line) in [
        (4_096, 4_096, None),
        (4_097, 4_097, Some(2)),
        (1, 2, Some(4)),
        (3, 2, Some(5)),
        (4_096, 4_095, Some(4_098)),
    ] {
        let listing = format!("answers>1\n{ROOT}{told}\n{}", nodes(count));
        edges.listing(&listing, line);
    }
    for (nodes, line) in [
        ("1>top\n0>top\n", 3),
        ("0>top\n0>top\n", 4),
        ("0>top\n2>top\n", 4),
        ("0>top\n01>top\n", 4),
        ("0>top\n1>top", 4),
        ("0>top\n\n", 4),
    ] {
        edges.listing(&format!("answers>1\n{ROOT}2\n{nodes}"), Some(line));
    }
}
