//! A listing as typed values.

use std::error::Error;
use std::fmt;

/// The roots of a listing, in the order of the table.
#[derive(Clone, Debug, PartialEq, Eq)]
pub struct Listing {
    pub form: Form,
    pub roots: Vec<Root>,
}

/// The numbers that a listing has for variables.
#[derive(Clone, Copy, Debug, PartialEq, Eq)]
pub enum Form {
    /// Those of the table.
    Plain,
    /// 0, 1, 2 and so on in each root, in the order of first appearance. The
    /// second line says `numbered`.
    Numbered,
}

#[derive(Clone, Debug, PartialEq, Eq)]
pub struct Root {
    pub id: u32,
    pub sign: Sign,
    pub answer: Answer,
}

/// Whether a root is shown as an output (`+`) or as an input (`-`).
#[derive(Clone, Copy, Debug, PartialEq, Eq)]
pub enum Sign {
    Output,
    Input,
}

#[derive(Clone, Debug, PartialEq, Eq)]
pub enum Answer {
    Shown(Shown),
    /// The root has passed the limit of this number, 6 to 9.
    Refused(u32),
}

/// A root's counts, its marks and its nodes: children first, its own last.
#[derive(Clone, Debug, PartialEq, Eq)]
pub struct Shown {
    pub passes: u32,
    pub operations: u32,
    /// Shared members stand in our order.
    pub sorted: bool,
    /// A pass ran out of budget, the first or the second.
    pub bailed: bool,
    pub nodes: Vec<Node>,
}

/// A node; its children are the numbers of nodes before it.
#[derive(Clone, Debug, PartialEq, Eq)]
pub enum Node {
    TyVar(u32),
    Prim(u32),
    List(usize),
    Fn { param: usize, body: usize },
    Set(Set),
    Union(Vec<usize>),
    Inter(Vec<usize>),
    Named { name: usize, inner: usize },
    Neg(usize),
    Bottom,
    Top,
}

/// A set; keys are the numbers of names.
#[derive(Clone, Debug, PartialEq, Eq)]
pub struct Set {
    pub fields: Vec<(usize, usize)>,
    pub dynamic: Option<usize>,
    pub open: bool,
    pub optional: Vec<usize>,
}

/// The earliest line of a listing that is not in form, or where one lacks.
#[derive(Clone, Copy, Debug, PartialEq, Eq)]
pub struct NotInForm {
    pub line: u32,
}

impl fmt::Display for NotInForm {
    fn fmt(&self, f: &mut fmt::Formatter<'_>) -> fmt::Result {
        write!(f, "line {} of the listing is not in form", self.line)
    }
}

impl Error for NotInForm {}

impl Form {
    /// What a listing's second line tells: it is `numbered`, or it is a root's,
    /// or there is none since there are no roots.
    pub(crate) fn told(listing: &[u8]) -> Option<Form> {
        let end = listing.iter().position(|byte| *byte == b'\n')? + 1;
        let (first, rest) = listing.split_at(end);
        let of_root = rest.starts_with(b"root\t") || rest.starts_with(b"refused\t");
        let without_roots = first == b"answers\t0\n" && rest.is_empty();
        match rest.starts_with(NUMBERED) {
            true => Some(Form::Numbered),
            false => (of_root || without_roots).then_some(Form::Plain),
        }
    }
}

impl Sign {
    /// As canon_root takes it.
    pub(crate) fn number(self) -> u32 {
        match self {
            Sign::Output => 0,
            Sign::Input => 1,
        }
    }
}

impl fmt::Display for Sign {
    fn fmt(&self, f: &mut fmt::Formatter<'_>) -> fmt::Result {
        f.write_str(match self {
            Sign::Output => "+",
            Sign::Input => "-",
        })
    }
}

impl Root {
    /// Whether both have the same type, or the same refusal. Counts and marks
    /// are not looked at.
    pub fn same_type(&self, other: &Root) -> bool {
        match (&self.answer, &other.answer) {
            (Answer::Shown(a), Answer::Shown(b)) => a.nodes == b.nodes,
            (a, b) => a == b,
        }
    }
}

impl Listing {
    /// Reads a listing without a line of `kept` or `redone`.
    pub fn read(text: &[u8]) -> Result<Self, NotInForm> {
        let mut lines = Lines { text, count: 0 };
        let listing = lines.listing();
        listing.ok_or(NotInForm { line: lines.count })
    }
}

/// The second line of a numbered listing.
const NUMBERED: &[u8] = b"numbered\n";

/// The most nodes of a root, and members of a list.
const NODES: usize = 4096;
const MEMBERS: usize = 128;

/// What is left of a text, and how many lines were asked for.
struct Lines<'a> {
    text: &'a [u8],
    count: u32,
}

impl<'a> Lines<'a> {
    /// The fields of the next line.
    fn next(&mut self) -> Option<Vec<&'a str>> {
        self.count += 1;
        let end = self.text.iter().position(|byte| *byte == b'\n')?;
        let line = std::str::from_utf8(&self.text[..end]).ok()?;
        self.text = &self.text[end + 1..];
        Some(line.split('\t').collect())
    }

    fn listing(&mut self) -> Option<Listing> {
        let ["answers", count] = self.next()?[..] else {
            return None;
        };
        let count = number(count)?;
        let form = self.form();
        let roots: Option<Vec<Root>> = (0..count).map(|_| self.root()).collect();
        let listing = Listing {
            form,
            roots: roots?,
        };
        if !self.text.is_empty() {
            self.count += 1;
            return None;
        }
        Some(listing)
    }

    /// The form that the second line tells, which is read if it is `numbered`.
    fn form(&mut self) -> Form {
        match self.text.strip_prefix(NUMBERED) {
            Some(rest) => {
                self.text = rest;
                self.count += 1;
                Form::Numbered
            }
            None => Form::Plain,
        }
    }

    fn root(&mut self) -> Option<Root> {
        let (id, sign, answer) = match self.next()?[..] {
            ["refused", id, sign, limit] => {
                let limit = number(limit).filter(|limit| (6..=9).contains(limit));
                (number(id)?, read_sign(sign)?, Answer::Refused(limit?))
            }
            ["root", id, sign, passes, operations, sorted, bailed, nodes] => {
                let (id, sign) = (number(id)?, read_sign(sign)?);
                let head = (number(passes)?, number(operations)?);
                let marks = (flag(sorted)?, flag(bailed)?);
                let shown = self.shown(head, marks, number(nodes)? as usize);
                (id, sign, Answer::Shown(shown?))
            }
            _ => return None,
        };
        Some(Root { id, sign, answer })
    }

    /// The nodes after a root's line whose counts and marks are these.
    fn shown(
        &mut self,
        (passes, operations): (u32, u32),
        (sorted, bailed): (bool, bool),
        count: usize,
    ) -> Option<Shown> {
        if !(1..=2).contains(&passes) || !(1..=NODES).contains(&count) {
            return None;
        }
        let nodes: Option<Vec<Node>> = (0..count).map(|i| self.node(i)).collect();
        Some(Shown {
            passes,
            operations,
            sorted,
            bailed,
            nodes: nodes?,
        })
    }

    /// The line of node i.
    fn node(&mut self, i: usize) -> Option<Node> {
        let fields = self.next()?;
        let (first, contents) = fields.split_first()?;
        match number(first)? as usize == i {
            true => node(contents, i),
            false => None,
        }
    }
}

/// A node by its kind and contents; its children are smaller than i.
fn node(contents: &[&str], i: usize) -> Option<Node> {
    let child = |field: &str| index(field).filter(|child| *child < i);
    let members = |field: &str| {
        let members = list(field, child)?;
        Some(members).filter(|members| members.len() <= MEMBERS)
    };
    Some(match *contents {
        ["tyvar", variable] => Node::TyVar(number(variable)?),
        ["prim", code] => Node::Prim(number(code).filter(|code| *code < 32)?),
        ["list", inner] => Node::List(child(inner)?),
        ["fn", param, body] => {
            let (param, body) = (child(param)?, child(body)?);
            Node::Fn { param, body }
        }
        ["set", fields, dynamic, open, optional] => Node::Set(Set {
            fields: list(fields, |field| {
                let (key, value) = field.split_once(':')?;
                Some((index(key)?, child(value)?))
            })
            .filter(|fields| ascends(fields, |field| field.0))?,
            dynamic: match dynamic {
                "-" => None,
                dynamic => Some(child(dynamic)?),
            },
            open: flag(open)?,
            optional: list(optional, index).filter(|keys| ascends(keys, |key| *key))?,
        }),
        ["union", list] => Node::Union(members(list)?),
        ["inter", list] => Node::Inter(members(list)?),
        ["named", name, inner] => {
            let (name, inner) = (index(name)?, child(inner)?);
            Node::Named { name, inner }
        }
        ["neg", inner] => Node::Neg(child(inner)?),
        ["bottom"] => Node::Bottom,
        ["top"] => Node::Top,
        _ => return None,
    })
}

/// A list, `-` if it is empty.
fn list<T>(field: &str, item: impl Fn(&str) -> Option<T>) -> Option<Vec<T>> {
    match field {
        "-" => Some(Vec::new()),
        items => items.split(',').map(item).collect(),
    }
}

fn ascends<T>(items: &[T], key: impl Fn(&T) -> usize) -> bool {
    items.windows(2).all(|two| key(&two[0]) < key(&two[1]))
}

/// A decimal with no leading zero.
fn number(field: &str) -> Option<u32> {
    let plain = field == "0" || field.starts_with(|first: char| ('1'..='9').contains(&first));
    field.parse().ok().filter(|_| plain)
}

fn index(field: &str) -> Option<usize> {
    number(field).map(|number| number as usize)
}

fn flag(field: &str) -> Option<bool> {
    match field {
        "0" => Some(false),
        "1" => Some(true),
        _ => None,
    }
}

fn read_sign(field: &str) -> Option<Sign> {
    match field {
        "+" => Some(Sign::Output),
        "-" => Some(Sign::Input),
        _ => None,
    }
}

#[cfg(test)]
mod tests {
    use super::*;

    const TALK_SHOW: &str = "answers\t1\nroot\t5\t+\t1\t9\t0\t0\t4\n0\tprim\t0\n1\tset\t0:0,1:0\t-\t1\t0\n2\tlist\t0\n3\tfn\t1\t2\n";

    fn fault(text: &str) -> Option<u32> {
        Listing::read(text.as_bytes()).err().map(|fault| fault.line)
    }

    #[test]
    fn every_part_is_read() {
        let listing = Listing::read(TALK_SHOW.as_bytes()).unwrap();
        let set = Set {
            fields: vec![(0, 0), (1, 0)],
            dynamic: None,
            open: true,
            optional: vec![0],
        };
        let shown = Shown {
            passes: 1,
            operations: 9,
            sorted: false,
            bailed: false,
            nodes: vec![
                Node::Prim(0),
                Node::Set(set),
                Node::List(0),
                Node::Fn { param: 1, body: 2 },
            ],
        };
        let root = Root {
            id: 5,
            sign: Sign::Output,
            answer: Answer::Shown(shown),
        };
        let roots = vec![root];
        assert_eq!(
            listing,
            Listing {
                form: Form::Plain,
                roots
            }
        );
    }

    #[test]
    fn every_kind_is_read() {
        let text = "answers\t2\nroot\t0\t-\t2\t7\t1\t1\t8\n0\ttyvar\t4294967295\n1\ttop\n2\tbottom\n3\tneg\t0\n4\tunion\t0,3\n5\tinter\t4,1\n\
                    6\tnamed\t3\t5\n7\tset\t-\t6\t0\t2,9\nrefused\t7\t+\t6\n";
        let listing = Listing::read(text.as_bytes()).unwrap();
        let Answer::Shown(shown) = &listing.roots[0].answer else {
            panic!("the first root is shown");
        };
        let set = Set {
            fields: Vec::new(),
            dynamic: Some(6),
            open: false,
            optional: vec![2, 9],
        };
        let nodes = [
            Node::TyVar(u32::MAX),
            Node::Top,
            Node::Bottom,
            Node::Neg(0),
            Node::Union(vec![0, 3]),
            Node::Inter(vec![4, 1]),
            Node::Named { name: 3, inner: 5 },
            Node::Set(set),
        ];
        assert_eq!(shown.nodes, nodes);
        assert_eq!((shown.passes, shown.operations), (2, 7));
        assert!(shown.sorted && shown.bailed);
        assert_eq!(listing.roots[0].sign, Sign::Input);
        assert_eq!(listing.roots[1].answer, Answer::Refused(6));
    }

    #[test]
    fn a_fault_has_its_line() {
        let edits = [
            ("answers\t1", "answers\t01", 1),
            ("answers\t1", "answers\t2", 7),
            ("answers\t1", "answers\t0", 2),
            ("root\t5\t+\t1", "root\t5\t+\t3", 2),
            ("\t0\t0\t4\n", "\t0\t0\t5\n", 7),
            ("\t0\t0\t4\n", "\t0\t2\t4\n", 2),
            ("0\tprim\t0", "0\tprim\t32", 3),
            ("0\tprim\t0", "1\tprim\t0", 3),
            ("0:0,1:0", "1:0,0:0", 4),
            ("2\tlist\t0", "2\tlist\t2", 5),
            ("3\tfn\t1\t2", "3\tfn\t1\t+2", 6),
            ("3\tfn\t1\t2\n", "3\tfn\t1\t2", 6),
        ];
        for (old, new, line) in edits {
            let text = TALK_SHOW.replace(old, new);
            assert_eq!(fault(&text), Some(line), "{new}");
        }
        assert_eq!(fault(""), Some(1));
        assert_eq!(fault(TALK_SHOW), None);
    }

    /// The same with the line `numbered`.
    fn numbered(listing: &str) -> String {
        listing.replacen('\n', "\nnumbered\n", 1)
    }

    #[test]
    fn a_numbered_listing_is_read() {
        let plain = Listing::read(TALK_SHOW.as_bytes()).unwrap();
        let listing = Listing::read(numbered(TALK_SHOW).as_bytes()).unwrap();
        assert_eq!((listing.form, listing.roots), (Form::Numbered, plain.roots));
        let none = Listing::read(b"answers\t0\nnumbered\n").unwrap();
        assert_eq!((none.form, none.roots.len()), (Form::Numbered, 0));
    }

    #[test]
    fn a_fault_of_a_numbered_listing_has_its_line() {
        let text = numbered(TALK_SHOW);
        assert_eq!(fault(&text), None);
        assert_eq!(fault(&numbered(&text)), Some(3));
        assert_eq!(fault(&text.replace("numbered", "numbered\t")), Some(2));
        assert_eq!(fault(&text.replace("prim\t0", "prim\t32")), Some(4));
        assert_eq!(fault(&format!("{text}numbered\n")), Some(8));
        assert_eq!(fault("answers\t0\nnumbered"), Some(2));
    }

    #[test]
    fn the_second_line_tells_the_form() {
        let told = |text: &str| Form::told(text.as_bytes());
        for text in [TALK_SHOW, "answers\t0\n", "answers\t1\nrefused\t5\t+\t6\n"] {
            assert_eq!(told(text), Some(Form::Plain));
            assert_eq!(told(&numbered(text)), Some(Form::Numbered));
        }
        let neither = [
            "",
            "answers\t1",
            "answers\t1\n",
            "answers\t1\nnumbered",
            "answers\t1\n\n",
        ];
        for text in neither {
            assert_eq!(told(text), None, "{text}");
        }
    }

    #[test]
    fn counts_are_no_part_of_the_type() {
        let read = |text: &str| Listing::read(text.as_bytes()).unwrap().roots.remove(0);
        let root = read(TALK_SHOW);
        assert!(root.same_type(&read(&TALK_SHOW.replace("\t9\t", "\t12\t"))));
        assert!(!root.same_type(&read(&TALK_SHOW.replace("prim\t0", "prim\t1"))));
        assert!(!root.same_type(&read("answers\t1\nrefused\t5\t+\t6\n")));
    }
}
