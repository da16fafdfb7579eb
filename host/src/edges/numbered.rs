//! The numbers that canon_numbered gives, in each place of a variable.

use oracle::Form;

use super::edge::Edges;
use super::marks;
use super::texts::in_form;
use crate::input::draft::tabs;

/// Tables but for the budget and the root, which is the last entry, and the
/// lines of the root but for its id and sign.
const ROOTS: [(&str, &str, &str); 14] = [
    (
        "no variable",
        "prim>0\nlist>0\n",
        "1>2>0>0>2\n0>prim>0\n1>list>0\n",
    ),
    ("a variable alone", "tyvar>7\n", "1>1>0>0>1\n0>tyvar>0\n"),
    ("its own number", "var>->-\n", "1>1>0>0>1\n0>tyvar>0\n"),
    (
        "the greatest number",
        "tyvar>4294967295\n",
        "1>1>0>0>1\n0>tyvar>0\n",
    ),
    (
        "one variable twice",
        "tyvar>9\nfn>0>0\n",
        "1>3>0>0>2\n0>tyvar>0\n1>fn>0>0\n",
    ),
    (
        "the body's is smaller",
        "tyvar>8\ntyvar>9\nfn>1>0\n",
        "1>3>0>0>3\n0>tyvar>0\n1>tyvar>1\n2>fn>0>1\n",
    ),
    (
        "met again below",
        "tyvar>8\ntyvar>9\nfn>1>0\nlist>0\nfn>2>3\n",
        "1>6>0>0>5\n0>tyvar>0\n1>tyvar>1\n2>fn>0>1\n3>list>1\n4>fn>2>3\n",
    ),
    (
        "fields by key, then dyn",
        "tyvar>9\ntyvar>8\ntyvar>4294967295\nset>0:1,1:2>0>0>-\n",
        "1>4>0>0>4\n0>tyvar>0\n1>tyvar>1\n2>tyvar>2\n3>set>0:0,1:1>2>0>-\n",
    ),
    (
        "members of a union",
        "tyvar>9\nlist>0\ntyvar>8\nnamed>0>2\nunion>1>3\n",
        "1>5>0>0>5\n0>tyvar>0\n1>list>0\n2>tyvar>1\n3>named>0>2\n4>union>1,3\n",
    ),
    (
        "members of an intersection",
        "tyvar>9\nnamed>1>0\ntyvar>8\nnamed>0>2\ninter>1>3\n",
        "1>5>0>0>5\n0>tyvar>0\n1>named>1>0\n2>tyvar>1\n3>named>0>2\n4>inter>1,3\n",
    ),
    (
        "below a negation",
        "tyvar>9\nneg>0\ntyvar>8\nfn>1>2\n",
        "1>4>0>0>4\n0>tyvar>0\n1>neg>0\n2>tyvar>1\n3>fn>1>2\n",
    ),
    (
        "from n on, and below",
        "tyvar>3\ntyvar>2\nfn>0>1\n",
        "1>3>0>0>3\n0>tyvar>0\n1>tyvar>1\n2>fn>0>1\n",
    ),
    (
        "in order as they are",
        "tyvar>0\ntyvar>1\nfn>0>1\n",
        "1>3>0>0>3\n0>tyvar>0\n1>tyvar>1\n2>fn>0>1\n",
    ),
    (
        "their numbers exchanged",
        "tyvar>1\ntyvar>0\nfn>0>1\n",
        "1>3>0>0>3\n0>tyvar>0\n1>tyvar>1\n2>fn>0>1\n",
    ),
];

/// README's show that swaps two fields, and its listing in each form.
const SWAP: &[u8] = include_bytes!("../../../examples/swap-show.table");
const SWAPPED: [(Form, &[u8]); 2] = [
    (
        Form::Plain,
        include_bytes!("../../../examples/swap-show.listing"),
    ),
    (
        Form::Numbered,
        include_bytes!("../../../examples/swap-show.numbered"),
    ),
];

pub fn numbered(edges: &mut Edges) {
    for (form, listing) in SWAPPED {
        edges.fits(form, "the show that swaps", SWAP, listing);
    }
    for (name, entries, lines) in ROOTS {
        let last = entries.lines().count() - 1;
        let text = format!("budget>4294967295\nname>a\nname>b\n{entries}root>{last}>+\n");
        let listing = format!("answers>1\nnumbered\nroot>{last}>+>{lines}");
        edges.fits(Form::Numbered, name, &tabs(&text), &tabs(&listing));
    }
    several_roots(edges);
    many_variables(edges);
    let bailed = in_form(Form::Numbered, marks::LISTING);
    edges.fits(Form::Numbered, "bailed", marks::TABLE.as_bytes(), &bailed);
}

/// Each root begins at 0, also behind one that is refused.
fn several_roots(edges: &mut Edges) {
    let mut text = String::from("budget>4294967295\ntyvar>7\ntyvar>6\nfn>0>1\n");
    for inner in 2..98 {
        text.push_str(&format!("list>{inner}\n"));
    }
    text.push_str("root>2>+\nroot>98>+\nroot>1>-\nroot>2>+\n");
    let lambda = "root>2>+>1>3>0>0>3\n0>tyvar>0\n1>tyvar>1\n2>fn>0>1\n";
    let one = "root>1>->1>1>0>0>1\n0>tyvar>0\n";
    let listing = format!("answers>4\nnumbered\n{lambda}refused>98>+>6\n{one}{lambda}");
    edges.fits(
        Form::Numbered,
        "several roots",
        &tabs(&text),
        &tabs(&listing),
    );
}

/// Numbers of one to three digits where there were ten.
fn many_variables(edges: &mut Edges) {
    let (mut text, mut lines) = (String::from("budget>4294967295\n"), String::new());
    let names: String = (0..150).map(|key| format!("name>{key:03}\n")).collect();
    text.push_str(&names);
    for i in 0..150 {
        text.push_str(&format!("tyvar>{}\n", u32::MAX - i));
        lines.push_str(&format!("{i}>tyvar>{i}\n"));
    }
    let fields: Vec<String> = (0..150).map(|key| format!("{key}:{key}")).collect();
    let set = format!("set>{}>->0>-\n", fields.join(","));
    text.push_str(&format!("{set}root>150>+\n"));
    let listing = format!("answers>1\nnumbered\nroot>150>+>1>151>0>0>151\n{lines}150>{set}");
    edges.fits(
        Form::Numbered,
        "150 variables",
        &tabs(&text),
        &tabs(&listing),
    );
}
