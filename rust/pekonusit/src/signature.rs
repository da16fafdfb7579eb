//! A root's type as a person reads it: a view, which promises nothing. What is
//! shown how is told in docs/FORMATS.md.

use crate::listing::{Answer, Node, Root, Set};
use crate::refusal::limit_words;

/// Where a signature is cut. One that has at most `length` bytes is written
/// whole, but for what is more than 255 levels down.
#[derive(Clone, Copy, Debug, PartialEq, Eq)]
pub struct View {
    /// Of a longer one the parts so many levels down are cut.
    pub depth: u8,
    /// If it is too long even so, it ends after so many bytes.
    pub length: usize,
}

impl Default for View {
    fn default() -> Self {
        View {
            depth: 6,
            length: 4000,
        }
    }
}

/// The names of a table, as they are shown.
#[derive(Clone, Debug, Default, PartialEq, Eq)]
pub struct Names(Vec<String>);

impl Names {
    /// Takes the name lines out of a table.
    pub fn read(table: &[u8]) -> Self {
        let lines = table.split(|byte| *byte == b'\n');
        let names = lines.filter_map(|line| line.strip_prefix(b"name\t"));
        Names(names.map(shown_name).collect())
    }

    /// The name of this number; a table has one for each that its listing has.
    fn get(&self, number: usize) -> String {
        match self.0.get(number) {
            Some(name) => name.clone(),
            None => format!("name{number}"),
        }
    }
}

/// A name as the table escapes it, in quotes where it is no Nix identifier.
fn shown_name(bytes: &[u8]) -> String {
    let mut shown = String::new();
    for chunk in bytes.utf8_chunks() {
        for char in chunk.valid().chars() {
            match char {
                '"' => shown.push_str("\\22"),
                char if char.is_control() => push_escaped(&mut shown, char.to_string().as_bytes()),
                char => shown.push(char),
            }
        }
        push_escaped(&mut shown, chunk.invalid());
    }
    match is_identifier(&shown) {
        true => shown,
        false => format!("\"{shown}\""),
    }
}

fn push_escaped(shown: &mut String, bytes: &[u8]) {
    for byte in bytes {
        shown.push_str(&format!("\\{byte:02x}"));
    }
}

fn is_identifier(name: &str) -> bool {
    let first = |char: char| char.is_ascii_alphabetic() || char == '_';
    let other = |char: char| first(char) || char.is_ascii_digit() || char == '\'' || char == '-';
    name.starts_with(first) && name.chars().all(other)
}

impl Root {
    /// The root's type, or the limit that it passed.
    pub fn signature(&self, names: &Names, view: View) -> String {
        let nodes = match &self.answer {
            Answer::Shown(shown) => &shown.nodes,
            Answer::Refused(number) => {
                return format!("refused {number}: {}", limit_words(*number))
            }
        };
        let whole = View {
            depth: u8::MAX,
            ..view
        };
        let writer = Writer::written(nodes, names, whole);
        match writer.full {
            true => Writer::written(nodes, names, view).text,
            false => writer.text,
        }
    }
}

/// Where a part stands, which decides on its brackets.
#[derive(Clone, Copy)]
enum Place {
    Param,
    OfUnion,
    OfInter,
    Negated,
}

/// Brackets stand where the part would be read otherwise without them: `&`
/// binds closer than `|`, and `|` closer than `->`.
fn is_bracketed(node: &Node, place: Place) -> bool {
    match node {
        Node::Fn { .. } => true,
        Node::Union(_) => !matches!(place, Place::OfUnion),
        Node::Inter(_) => matches!(place, Place::Param | Place::Negated),
        _ => false,
    }
}

struct Writer<'a> {
    nodes: &'a [Node],
    names: &'a Names,
    view: View,
    text: String,
    /// The length is reached, and nothing more is written.
    full: bool,
    /// The variables met so far; their letters follow their order.
    variables: Vec<u32>,
}

impl<'a> Writer<'a> {
    /// The last of these nodes, written.
    fn written(nodes: &'a [Node], names: &'a Names, view: View) -> Self {
        let mut writer = Writer {
            nodes,
            names,
            view,
            text: String::new(),
            full: false,
            variables: Vec::new(),
        };
        if let Some(last) = nodes.len().checked_sub(1) {
            writer.node(last, 0);
        }
        writer
    }

    fn put(&mut self, words: &str) {
        if self.full {
            return;
        }
        self.full = self.text.len() + words.len() > self.view.length;
        self.text.push_str(if self.full { "..." } else { words });
    }

    /// Writes a node so many levels down.
    fn node(&mut self, number: usize, depth: u8) {
        if self.full {
            return;
        }
        let nodes = self.nodes;
        let node = &nodes[number];
        match node {
            Node::TyVar(variable) => {
                let letter = self.letter(*variable);
                self.put(&letter);
            }
            Node::Prim(code) => self.put(&primitive(*code)),
            Node::Named { name, .. } => self.put(&self.names.get(*name)),
            Node::Bottom => self.put("never"),
            Node::Top => self.put("any"),
            _ if depth >= self.view.depth => self.put(&cut(node)),
            _ => self.parts(node, depth + 1),
        }
    }

    /// Writes a node that has parts, which are so many levels down.
    fn parts(&mut self, node: &Node, depth: u8) {
        match node {
            Node::List(inner) => {
                self.put("[");
                self.node(*inner, depth);
                self.put("]");
            }
            Node::Fn { param, body } => {
                self.part(*param, depth, Place::Param);
                self.put(" -> ");
                self.node(*body, depth);
            }
            Node::Set(set) => self.set(set, depth),
            Node::Union(members) => self.members(members, depth, " | ", Place::OfUnion),
            Node::Inter(members) => self.members(members, depth, " & ", Place::OfInter),
            Node::Neg(inner) => {
                self.put("~");
                self.part(*inner, depth, Place::Negated);
            }
            _ => {}
        }
    }

    fn part(&mut self, number: usize, depth: u8, place: Place) {
        let node = &self.nodes[number];
        let whole = depth < self.view.depth || matches!(node, Node::Fn { .. });
        let brackets = whole && is_bracketed(node, place);
        if brackets {
            self.put("(");
        }
        self.node(number, depth);
        if brackets {
            self.put(")");
        }
    }

    fn members(&mut self, members: &[usize], depth: u8, between: &str, place: Place) {
        for (i, member) in members.iter().enumerate() {
            if i > 0 {
                self.put(between);
            }
            self.part(*member, depth, place);
        }
    }

    fn set(&mut self, set: &Set, depth: u8) {
        let mut before = "{ ";
        for (key, value) in &set.fields {
            let mark = if set.optional.contains(key) { "?" } else { "" };
            self.put(&format!("{before}{}{mark} : ", self.names.get(*key)));
            self.node(*value, depth);
            before = ", ";
        }
        if let Some(value) = set.dynamic {
            self.put(&format!("{before}_ : "));
            self.node(value, depth);
            before = ", ";
        }
        if set.open {
            self.put(&format!("{before}.."));
            before = ", ";
        }
        self.put(if before == "{ " { "{ }" } else { " }" });
    }

    /// a to z, then a1 to z1, and so on.
    fn letter(&mut self, variable: u32) -> String {
        let known = self.variables.iter().position(|met| *met == variable);
        let number = known.unwrap_or_else(|| {
            self.variables.push(variable);
            self.variables.len() - 1
        });
        let letter = char::from(b'a' + (number % 26) as u8);
        match number / 26 {
            0 => letter.to_string(),
            round => format!("{letter}{round}"),
        }
    }
}

/// What stands for a node that is too far down.
fn cut(node: &Node) -> String {
    match node {
        Node::List(_) => "[...]".to_string(),
        Node::Fn { .. } => "... -> ...".to_string(),
        Node::Set(set) => {
            let fields = set.fields.len() + usize::from(set.dynamic.is_some());
            format!("{{ ... {fields} fields ... }}")
        }
        _ => "...".to_string(),
    }
}

/// tix's primitives, in the order in which the comparison with it counts them.
fn primitive(code: u32) -> String {
    const KNOWN: [&str; 8] = [
        "Int", "Float", "Number", "Null", "Bool", "String", "Path", "Uri",
    ];
    match KNOWN.get(code as usize) {
        Some(name) => name.to_string(),
        None => format!("Prim{code}"),
    }
}

#[cfg(test)]
mod tests {
    use super::*;
    use crate::listing::Listing;

    /// The signature of a root with these nodes, `>` for a tab, the names being
    /// `a` to `f`.
    fn signature(nodes: &[&str], view: View) -> String {
        let mut text = format!("answers>1\nroot>0>+>1>1>0>0>{}\n", nodes.len());
        for (i, node) in nodes.iter().enumerate() {
            text.push_str(&format!("{i}>{node}\n"));
        }
        let listing = Listing::read(text.replace('>', "\t").as_bytes()).expect("in form");
        let names =
            Names::read(b"budget\t1\nname\ta\nname\tb\nname\tc\nname\td\nname\te\nname\tf\n");
        listing.roots[0].signature(&names, view)
    }

    fn whole(nodes: &[&str]) -> String {
        signature(nodes, View::default())
    }

    #[test]
    fn leaves() {
        let codes = [
            "Int", "Float", "Number", "Null", "Bool", "String", "Path", "Uri", "Prim8",
        ];
        for (code, name) in codes.iter().enumerate() {
            assert_eq!(whole(&[&format!("prim>{code}")]), *name);
        }
        assert_eq!(whole(&["prim>31"]), "Prim31");
        assert_eq!(whole(&["bottom"]), "never");
        assert_eq!(whole(&["top"]), "any");
        assert_eq!(whole(&["prim>0", "named>2>0"]), "c");
    }

    #[test]
    fn sets() {
        assert_eq!(whole(&["set>->->0>-"]), "{ }");
        assert_eq!(whole(&["set>->->1>-"]), "{ .. }");
        assert_eq!(whole(&["prim>0", "set>->0>0>-"]), "{ _ : Int }");
        assert_eq!(
            whole(&["prim>0", "set>0:0,2:0>0>1>2,3"]),
            "{ a : Int, c? : Int, _ : Int, .. }"
        );
    }

    #[test]
    fn brackets_only_where_needed() {
        let three = [
            "prim>0",
            "prim>1",
            "union>0,1",
            "inter>0,1",
            "fn>0>1",
            "neg>0",
        ];
        let with = |last: &str| whole(&[&three[..], &[last]].concat());
        assert_eq!(
            with("union>2,3,4,5"),
            "Int | Float | Int & Float | (Int -> Float) | ~Int"
        );
        assert_eq!(
            with("inter>2,3,4,5"),
            "(Int | Float) & Int & Float & (Int -> Float) & ~Int"
        );
        assert_eq!(with("fn>2>2"), "(Int | Float) -> Int | Float");
        assert_eq!(with("fn>3>3"), "(Int & Float) -> Int & Float");
        assert_eq!(with("fn>4>4"), "(Int -> Float) -> Int -> Float");
        assert_eq!(with("fn>5>0"), "~Int -> Int");
        assert_eq!(with("neg>2"), "~(Int | Float)");
        assert_eq!(with("neg>3"), "~(Int & Float)");
        assert_eq!(with("neg>4"), "~(Int -> Float)");
        assert_eq!(with("list>4"), "[Int -> Float]");
    }

    #[test]
    fn variables_are_letters_in_order_of_appearance() {
        let nodes = ["tyvar>7", "tyvar>3", "fn>1>0", "fn>0>2"];
        assert_eq!(whole(&nodes), "a -> b -> a");
        let variables: Vec<String> = (0..28).map(|i| format!("tyvar>{}", 90 - i)).collect();
        let mut nodes: Vec<&str> = variables.iter().map(String::as_str).collect();
        let members: Vec<String> = (0..28).map(|i: u32| i.to_string()).collect();
        let union = format!("union>{}", members.join(","));
        nodes.push(&union);
        assert!(whole(&nodes).ends_with(" | y | z | a1 | b1"));
    }

    /// Each node has the one before twice: written in full there are as many
    /// as two to this power.
    fn doubled(levels: usize) -> Vec<String> {
        let levels = (0..levels).map(|i| format!("fn>{i}>{i}"));
        std::iter::once("prim>0".to_string())
            .chain(levels)
            .collect()
    }

    #[test]
    fn deep_parts_of_long_types_are_cut() {
        let nodes = [
            "prim>0",
            "list>0",
            "fn>1>0",
            "set>0:2,1:0>2>0>-",
            "union>3,2",
            "neg>4",
            "fn>5>4",
        ];
        let whole = whole(&nodes);
        let set = "{ a : [Int] -> Int, b : Int, _ : [Int] -> Int } | ([Int] -> Int)";
        assert_eq!(whole, format!("~({set}) -> {set}"));
        let cut = |depth, less: usize| {
            let length = whole.len() - less;
            signature(&nodes, View { depth, length })
        };
        assert_eq!(cut(0, 0), whole);
        assert_eq!(cut(0, 1), "... -> ...");
        assert_eq!(cut(1, 1), "... -> ...");
        assert_eq!(cut(2, 1), "~... -> { ... 3 fields ... } | (... -> ...)");
        assert_eq!(
            cut(3, 1),
            "~({ ... 3 fields ... } | (... -> ...)) -> { a : ... -> ..., b : Int, _ : ... -> ... } | ([...] -> Int)"
        );
        let list = View {
            depth: 0,
            length: 6,
        };
        assert_eq!(signature(&["prim>0", "list>0", "list>1"], list), "[...]");
    }

    #[test]
    fn long_signatures_end() {
        let nodes = doubled(60);
        let nodes: Vec<&str> = nodes.iter().map(String::as_str).collect();
        let view = View {
            depth: 255,
            length: 100,
        };
        let text = signature(&nodes, view);
        assert!(text.starts_with("((((") && text.ends_with("..."));
        assert_eq!(text.len(), 103);
        assert_eq!(
            signature(&nodes, View { depth: 2, ..view }),
            "((... -> ...) -> ... -> ...) -> (... -> ...) -> ... -> ..."
        );
    }

    #[test]
    fn names_are_safe_to_print() {
        let table = b"budget\t1\nname\t\nname\t-\nname\ta'b-c_9\nname\ttwo words\nname\t\\0a\\5c\n\
                      name\t\"\nname\t\xc3\xa9\nname\t\xff\nname\t\xc2\x9b\nprim\t0\n";
        let names = Names::read(table);
        let shown: Vec<String> = (0..10).map(|i| names.get(i)).collect();
        let expected = [
            "\"\"",
            "\"-\"",
            "a'b-c_9",
            "\"two words\"",
            "\"\\0a\\5c\"",
            "\"\\22\"",
            "\"é\"",
            "\"\\ff\"",
            "\"\\c2\\9b\"",
            "name9",
        ];
        assert_eq!(shown, expected);
    }

    #[test]
    fn a_refused_root_has_its_limit() {
        let listing = Listing::read(b"answers\t1\nrefused\t5\t+\t6\n").unwrap();
        let text = listing.roots[0].signature(&Names::default(), View::default());
        assert_eq!(text, "refused 6: more than 96 keys would be in progress");
    }
}
