//! A listing of the other form, the second line that tells a form, and the
//! numbers of variables.

use oracle::Form;

use super::edge::{input, Edges, ROOT};

const TABLE: &str = "budget>1\nprim>0\nroot>0>+\n";
const ROOTLESS: &str = "budget>1\n";

/// What may stand behind the lines before the first root, with its table.
fn roots() -> Vec<(&'static str, String)> {
    let mut roots = vec![
        (ROOTLESS, String::new()),
        (TABLE, format!("{ROOT}1\n0>prim>0\n")),
        (TABLE, format!("{ROOT}2\n0>tyvar>0\n1>list>0\n")),
    ];
    let refused = (6..=9).map(|number| (TABLE, format!("refused>0>+>{number}\n")));
    roots.extend(refused);
    roots
}

fn first_line(table: &str) -> String {
    format!("answers>{}\n", table.matches("root").count())
}

/// Refused at line 2, unless line 1 is at fault.
pub fn mixed(edges: &mut Edges) {
    let second = match edges.form() {
        Form::Plain => "numbered\n",
        Form::Numbered => "",
    };
    for (table, root) in roots() {
        let good = first_line(table);
        let rest = format!("{second}{root}");
        for (first, line) in [
            (&good[..], 2),
            ("answers>3\n", 1),
            ("Answers>0\n", 1),
            ("\n", 1),
        ] {
            let name = format!("another form, {first:?} {root:?}");
            let listing = format!("{first}{rest}");
            edges.refused(&name, &input(table, table, &listing), 11, line);
        }
    }
}

/// Other second lines than `numbered`, and that in other places.
pub fn second_lines(edges: &mut Edges) {
    for (table, root) in roots() {
        other_words(edges, table, &root);
        other_places(edges, table, &root);
    }
    cut_off(edges);
}

fn other_words(edges: &mut Edges, table: &str, root: &str) {
    let first = first_line(table);
    for second in [
        "\n",
        "Numbered\n",
        " numbered\n",
        "numbered \n",
        "numbered>\n",
        "numbered>1\n",
        "numbered\r\n",
        "numbere\n",
        "numberedd\n",
        "plain\n",
        &first,
    ] {
        let listing = format!("{first}{second}{root}");
        edges.refused(&listing, &input(table, table, &listing), 11, 2);
    }
}

/// Without its line feed, before the first line, and twice.
fn other_places(edges: &mut Edges, table: &str, root: &str) {
    let first = first_line(table);
    for (listing, line) in [
        (format!("{first}numbered"), 2),
        (format!("numbered\n{first}{root}"), 1),
        (format!("{first}numbered\nnumbered\n{root}"), edges.line(2)),
    ] {
        edges.refused(&listing, &input(table, table, &listing), 11, line);
    }
}

/// Listings that end with line 1 or 2.
fn cut_off(edges: &mut Edges) {
    edges.refused("line 1 alone", &input(TABLE, TABLE, "answers>1\n"), 11, 2);
    let whole = edges.same(TABLE, "answers>1\n");
    edges.refused("no root", &whole, 11, edges.line(2));
    let alone = input(ROOTLESS, ROOTLESS, "answers>0\n");
    match edges.form() {
        Form::Plain => edges.kept("line 1 alone, no roots", &alone),
        Form::Numbered => edges.refused("line 1 alone, no roots", &alone, 11, 2),
    }
}

/// Old numbers are copied as they are, and a root that is redone has its own.
pub fn numbers(edges: &mut Edges) {
    let old = "budget>4294967295\ntyvar>9\ntyvar>8\nfn>0>1\nfn>1>0\nprim>0\n\
               root>2>+\nroot>3>+\nroot>4>+\n";
    let lambda = |id: u32, [a, b]: [u32; 2]| {
        format!("root>{id}>+>1>3>0>0>3\n0>tyvar>{a}\n1>tyvar>{b}\n2>fn>0>1\n")
    };
    let prim = "root>4>+>1>1>0>0>1\n0>prim>0\n";
    for wrong in [[7, 7], [1, 0], [u32::MAX, 8], [9, 8]] {
        let [first, second] = [2, 3].map(|id| lambda(id, wrong));
        let listing = format!("answers>3\n{first}{second}{prim}");
        let kept = edges.same(old, &listing);
        edges.kept(&format!("old numbers {wrong:?}"), &kept);
        // The second lambda is redone.
        let new = old.replacen("fn>1>0", "fn>1>1", 1);
        let own = match edges.form() {
            Form::Plain => 8,
            Form::Numbered => 0,
        };
        let redone = format!("root>3>+>1>3>0>0>2\n0>tyvar>{own}\n1>fn>0>0\n");
        let answer = edges.same("", &format!("answers>3\n{first}{redone}{prim}"));
        let input = edges.input(old, &new, &listing);
        let name = format!("old numbers {wrong:?}, one redone");
        edges.answers(&name, &input, "kept\tredone\tkept\n", &answer.listing);
    }
}
