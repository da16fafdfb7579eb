//! Document 01's worked examples, and request 2's. Tables and listings are
//! written out by hand from the document, `>` for a tab.

use oracle::examples::{self, Example};
use oracle::{Answer, Form, Node, RootAnswer, Shown};

const TABS: char = '>';

fn find(name: &str) -> Example {
    let found = examples::all().into_iter().find(|e| e.name == name);
    found.unwrap_or_else(|| panic!("{name} is no example"))
}

fn bytes(text: &str) -> Vec<u8> {
    text.replace(TABS, "\t").into_bytes()
}

fn listing(table: &[u8]) -> String {
    listing_in(Form::Plain, table)
}

fn listing_in(form: Form, table: &[u8]) -> String {
    let listing = oracle::listing(form, table).expect("the table has a listing");
    let listing = String::from_utf8(listing).expect("a listing is text");
    listing.replace('\t', ">")
}

/// The example's table is this text, and its listing is that.
fn check(name: &str, table: &str, expected: &str) {
    let table = bytes(table);
    assert_eq!(find(name).table, table, "{name}: the table");
    assert_eq!(listing(&table), expected, "{name}");
}

/// The first root's answer.
fn shown(table: &[u8]) -> Shown {
    let answers = oracle::answers(Form::Plain, table).expect("the table has answers");
    match &answers[0].answer {
        Answer::Shown(shown) => shown.clone(),
        other => panic!("no answer: {other:?}"),
    }
}

#[test]
#[cfg_attr(not(text_at_hand), ignore = "the Rust text is not at hand")]
fn k1() {
    check(
        "K1",
        "budget>4294967295\nvar>2>-\nfn>0>0\nprim>0\nroot>1>+\n",
        "answers>1\nroot>1>+>2>9>0>0>4\n0>tyvar>0\n1>prim>0\n2>union>0,1\n3>fn>0>2\n",
    );
}

#[test]
#[cfg_attr(not(text_at_hand), ignore = "the Rust text is not at hand")]
fn k2() {
    check(
        "K2",
        "budget>4294967295\nvar>->2\nfn>0>2\nprim>0\nroot>1>+\n",
        "answers>1\nroot>1>+>1>4>0>0>2\n0>prim>0\n1>fn>0>0\n",
    );
}

#[test]
#[cfg_attr(not(text_at_hand), ignore = "the Rust text is not at hand")]
fn k3() {
    check(
        "K3",
        "budget>4294967295\nvar>1>-\nprim>0\nroot>0>-\n",
        "answers>1\nroot>0>->1>2>0>0>1\n0>prim>0\n",
    );
    check(
        "K3 marked",
        "budget>4294967295\nvar>1>-\nprim>0\nmark>0\nroot>0>-\n",
        "answers>1\nroot>0>->1>1>0>0>1\n0>tyvar>0\n",
    );
}

#[test]
#[cfg_attr(not(text_at_hand), ignore = "the Rust text is not at hand")]
fn k4() {
    check(
        "K4",
        "budget>4294967295\nprim>0\nneg>0\nunion>0>1\nroot>2>+\nroot>2>-\n",
        "answers>2\nroot>2>+>1>4>0>0>1\n0>top\n\
         root>2>->1>4>0>0>3\n0>prim>0\n1>neg>0\n2>union>0,1\n",
    );
}

#[test]
#[cfg_attr(not(text_at_hand), ignore = "the Rust text is not at hand")]
fn k5() {
    check(
        "K5",
        "budget>4294967295\nprim>0\nneg>0\nprim>3\nunion>1>2\nunion>0>3\nroot>4>+\n",
        "answers>1\nroot>4>+>1>6>0>0>1\n0>prim>3\n",
    );
}

#[test]
#[cfg_attr(not(text_at_hand), ignore = "the Rust text is not at hand")]
fn k6() {
    check(
        "K6 16 bounds",
        "budget>4294967295\nvar>1,1,1,1,1,1,1,1,1,1,1,1,1,1,1,1>-\nprim>0\nroot>0>+\n",
        "answers>1\nroot>0>+>1>17>0>0>1\n0>prim>0\n",
    );
    check(
        "K6 17 bounds",
        "budget>4294967295\nvar>1,1,1,1,1,1,1,1,1,1,1,1,1,1,1,1,1>-\nprim>0\nroot>0>+\n",
        "answers>1\nroot>0>+>1>2>0>0>1\n0>prim>0\n",
    );
}

#[test]
#[cfg_attr(not(text_at_hand), ignore = "the Rust text is not at hand")]
fn k7() {
    assert_eq!(shown(&find("K7 64 bounds").table).nodes, [Node::Prim(0)]);
    assert_eq!(
        shown(&find("K7 65 bounds").table).nodes,
        [Node::Prim(0), Node::Union(vec![0; 65])]
    );
}

#[test]
#[cfg_attr(not(text_at_hand), ignore = "the Rust text is not at hand")]
fn k8() {
    check(
        "K8",
        "budget>4294967295\nvar>->-\nvar>->-\nvar>->-\npair>0>1\npair>1>2\nroot>0>+\n",
        "answers>1\nroot>0>+>1>1>0>0>1\n0>tyvar>2\n",
    );
}

#[test]
#[cfg_attr(not(text_at_hand), ignore = "the Rust text is not at hand")]
fn k9() {
    check(
        "K9",
        "budget>4294967295\ntyvar>9\ntyvar>8\nunion>0>1\nroot>2>+\n",
        "answers>1\nroot>2>+>1>3>0>0>1\n0>tyvar>9\n",
    );
}

#[test]
#[cfg_attr(not(text_at_hand), ignore = "the Rust text is not at hand")]
fn k10() {
    check(
        "K10 Int Float",
        "budget>4294967295\nprim>0\nprim>1\ninter>0>1\nroot>2>+\nroot>2>-\n",
        "answers>2\nroot>2>+>1>3>0>0>1\n0>bottom\nroot>2>->1>3>0>0>1\n0>bottom\n",
    );
    check(
        "K10 Int Number",
        "budget>4294967295\nprim>0\nprim>2\ninter>0>1\nroot>2>+\nroot>2>-\n",
        "answers>2\nroot>2>+>1>3>0>0>3\n0>prim>0\n1>prim>2\n2>inter>0,1\n\
         root>2>->1>3>0>0>3\n0>prim>0\n1>prim>2\n2>inter>0,1\n",
    );
}

/// The lambda's body is visited by operation 512: with budget 511 the pass
/// bails there, with 512 it does not.
#[test]
#[cfg_attr(not(text_at_hand), ignore = "the Rust text is not at hand")]
fn k11() {
    let bailed = shown(&find("K11 511").table);
    assert_eq!((bailed.operations, bailed.bailed), (512, true));
    let whole = shown(&find("K11 512").table);
    assert_eq!((whole.operations, whole.bailed), (512, false));
    assert_eq!(body(&bailed), &Node::TyVar(0));
    assert_eq!(body(&whole), &Node::Prim(0));
}

/// Request 2: the mark is 1 if either pass bailed. With budget 511 the first
/// root's first pass bails and its second does not, and both of the second
/// root's do; with 600 only the second pass of the second root.
#[test]
#[cfg_attr(not(text_at_hand), ignore = "the Rust text is not at hand")]
fn bailed() {
    let table = find("bailed 511").table;
    assert_eq!(table, include_bytes!("../../examples/bailed.table"));
    let expected = include_str!("../../examples/bailed.listing");
    assert_eq!(listing(&table), expected.replace('\t', ">"));
    assert_eq!(bails(&table), [(true, true), (true, false)]);
    assert_eq!(
        bails(&find("bailed 600").table),
        [(false, false), (true, false)]
    );
}

/// The mark of each root, and whether it is the first pass's alone.
fn bails(table: &[u8]) -> Vec<(bool, bool)> {
    let answers = oracle::answers(Form::Plain, table).expect("the table has answers");
    let bails = |answer: &RootAnswer| match &answer.answer {
        Answer::Shown(shown) => (shown.bailed, shown.first_alone),
        other => panic!("no answer: {other:?}"),
    };
    answers.iter().map(bails).collect()
}

fn body(shown: &Shown) -> &Node {
    match shown.nodes.last() {
        Some(Node::Fn(_, body)) => &shown.nodes[*body as usize],
        other => panic!("no lambda: {other:?}"),
    }
}

/// The text has no limits, but the measures tell that one would be passed.
#[test]
#[cfg_attr(not(text_at_hand), ignore = "the Rust text is not at hand")]
fn k12() {
    let table = find("K12 95 lists").table;
    let lists = bytes(&examples::nested_lists(96));
    let longer = [&b"budget\t4294967295\n"[..], &lists].concat();
    for (table, keys) in [(table, 96), (longer, 97)] {
        let answers = oracle::answers(Form::Plain, &table).expect("the table has answers");
        assert_eq!(answers[0].measures.keys, keys);
        let shown = shown(&table);
        assert_eq!(shown.nodes.len(), keys);
        assert_eq!(shown.nodes[0], Node::Prim(0));
        for (inner, node) in shown.nodes[1..].iter().enumerate() {
            assert_eq!(*node, Node::List(inner as u32));
        }
    }
}

/// Like K11, but operation 512 visits a bound of a variable whose two
/// fallbacks then call each other for ever; a mark ends that.
#[test]
#[cfg_attr(not(text_at_hand), ignore = "the Rust text is not at hand")]
fn endless_chain() {
    let table = String::from_utf8(find("K11 511").table).expect("text");
    let table = table.replace('\t', ">");
    // One list fewer puts the body at 511 and its bound at 512.
    let whole = "list>74\nfn>75>0\nroot>76>+\n";
    let lines = table.strip_suffix(whole).expect("K11's last lines");
    let table = format!("{lines}fn>74>76\nvar>0>0\n");
    let plain = format!("{table}root>75>+\n");
    assert_eq!(listing(&bytes(&plain)), "answers>1\nendless>75>+\n");
    let marked = shown(&bytes(&format!("{table}mark>76\nroot>75>+\n")));
    assert_eq!((marked.operations, marked.bailed), (512, true));
    assert_eq!(body(&marked), &Node::TyVar(76));
}

/// Negation walks shared parts again and again: 25 levels would take 2^25
/// steps and are given up.
#[test]
#[cfg_attr(not(text_at_hand), ignore = "the Rust text is not at hand")]
fn negation_too_long() {
    let mut names = String::new();
    let mut entries = String::from("prim>0\n");
    let mut union = 0;
    for level in 0..25 {
        let (name, first) = (2 * level, 5 * level + 1);
        names.push_str(&format!("name>{name:02}\nname>{:02}\n", name + 1));
        entries.push_str(&format!(
            "named>{name}>0\nnamed>{}>0\ninter>{union}>{first}\ninter>{union}>{}\nunion>{}>{}\n",
            name + 1,
            first + 1,
            first + 2,
            first + 3
        ));
        union = first + 4;
    }
    let table = format!(
        "budget>4294967295\n{names}{entries}neg>{union}\nroot>{}>+\n",
        union + 1
    );
    assert_eq!(listing(&bytes(&table)), "answers>1\ntoolong>126>+\n");
}

#[test]
fn outside_the_domain() {
    for table in ["budget>0\nprim>8\nroot>0>+\n", "budget>0\nprim>31\n"] {
        check_outside(&bytes(table));
    }
    check_outside(b"budget\t0\nname\t\xff\n");
}

fn check_outside(table: &[u8]) {
    let expected = match oracle::text_at_hand() {
        true => oracle::Fault::Outside,
        false => oracle::Fault::NoText,
    };
    for form in Form::ALL {
        assert_eq!(oracle::listing(form, table), Err(expected));
    }
}

#[test]
#[cfg_attr(not(text_at_hand), ignore = "the Rust text is not at hand")]
fn all_kinds_of_line() {
    // A set with every field, a named and an intersection, to see the form.
    let table = "budget>4294967295\nname>a\nname>b\nname>c\nprim>0\nset>0:0,2:3>0>1>0,1\n\
                 named>1>1\nlist>0\nroot>2>+\nroot>3>-\n";
    let expected = "answers>2\nroot>2>+>1>6>0>0>4\n0>prim>0\n1>list>0\n\
                    2>set>0:0,2:1>0>1>0,1\n3>named>1>2\nroot>3>->1>2>0>0>2\n0>prim>0\n1>list>0\n";
    assert_eq!(listing(&bytes(table)), expected);
    let empty = "budget>4294967295\nset>->->0>-\nroot>0>+\n";
    let expected = "answers>1\nroot>0>+>1>1>0>0>1\n0>set>->->0>-\n";
    assert_eq!(listing(&bytes(empty)), expected);
    assert_eq!(listing(b"budget\t0\n"), "answers>0\n");
}

/// Request 1: in each root the variables are 0, 1, 2 and so on, in the order in
/// which they first appear; the rest is as it was.
#[test]
#[cfg_attr(not(text_at_hand), ignore = "the Rust text is not at hand")]
fn numbered() {
    for (table, expected) in [
        ("", "answers>0\nnumbered\n"),
        (
            "prim>0\nlist>0\nroot>1>+\n",
            "answers>1\nnumbered\nroot>1>+>1>2>0>0>2\n0>prim>0\n1>list>0\n",
        ),
        // The body has the smaller number; the second root begins anew.
        (
            "tyvar>4294967295\ntyvar>7\nfn>0>1\nlist>1\nroot>2>+\nroot>3>+\n",
            "answers>2\nnumbered\nroot>2>+>1>3>0>0>3\n0>tyvar>0\n1>tyvar>1\n2>fn>0>1\n\
             root>3>+>1>2>0>0>2\n0>tyvar>0\n1>list>0\n",
        ),
        // Fields by key, and then dyn.
        (
            "name>a\nname>b\ntyvar>9\ntyvar>8\ntyvar>7\nset>0:2,1:1>0>0>-\nroot>3>+\n",
            "answers>1\nnumbered\nroot>3>+>1>4>0>0>4\n0>tyvar>0\n1>tyvar>1\n2>tyvar>2\n\
             3>set>0:0,1:1>2>0>-\n",
        ),
    ] {
        let table = format!("budget>4294967295\n{table}");
        assert_eq!(listing_in(Form::Numbered, &bytes(&table)), expected);
    }
}
