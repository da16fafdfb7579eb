//! A table, as values, and its text.

use std::fmt::Write as _;

/// One entry of the table.
#[derive(Clone, Debug, PartialEq, Eq)]
pub enum Entry {
    Var { lowers: Vec<u32>, uppers: Vec<u32> },
    Prim(u32),
    TyVar(u32),
    List(u32),
    Fn(u32, u32),
    Set(Set),
    Neg(u32),
    Named(u32, u32),
    Inter(u32, u32),
    Union(u32, u32),
}

/// Keys are name numbers.
#[derive(Clone, Debug, Default, PartialEq, Eq)]
pub struct Set {
    pub fields: Vec<(u32, u32)>,
    pub dyn_ty: Option<u32>,
    pub open: bool,
    pub optional: Vec<u32>,
}

#[derive(Clone, Copy, Debug, PartialEq, Eq)]
pub struct Root {
    pub id: u32,
    pub positive: bool,
}

impl Root {
    pub fn sign(self) -> char {
        if self.positive {
            '+'
        } else {
            '-'
        }
    }
}

#[derive(Clone, Debug, Default, PartialEq, Eq)]
pub struct Table {
    pub budget: u32,
    pub names: Vec<Vec<u8>>,
    pub entries: Vec<Entry>,
    pub pairs: Vec<(u32, u32)>,
    pub marks: Vec<u32>,
    pub roots: Vec<Root>,
}

/// Whether a name's byte is written as an escape.
pub fn is_escaped(byte: u8) -> bool {
    matches!(byte, 0x00..=0x1f | 0x5c | 0x7f)
}

impl Table {
    pub fn to_text(&self) -> Vec<u8> {
        let mut text = format!("budget\t{}\n", self.budget).into_bytes();
        for name in &self.names {
            text.extend(name_line(name));
        }
        for entry in &self.entries {
            text.extend(entry_line(entry).into_bytes());
        }
        let mut rest = String::new();
        for (a, b) in &self.pairs {
            rest.push_str(&format!("pair\t{a}\t{b}\n"));
        }
        for id in &self.marks {
            rest.push_str(&format!("mark\t{id}\n"));
        }
        for root in &self.roots {
            rest.push_str(&format!("root\t{}\t{}\n", root.id, root.sign()));
        }
        text.extend(rest.into_bytes());
        text
    }
}

pub fn name_line(name: &[u8]) -> Vec<u8> {
    let mut line = b"name\t".to_vec();
    for &byte in name {
        if is_escaped(byte) {
            line.extend(format!("\\{byte:02x}").into_bytes());
        } else {
            line.push(byte);
        }
    }
    line.push(b'\n');
    line
}

fn entry_line(entry: &Entry) -> String {
    match entry {
        Entry::Var { lowers, uppers } => {
            format!("var\t{}\t{}\n", list_text(lowers), list_text(uppers))
        }
        Entry::Prim(code) => format!("prim\t{code}\n"),
        Entry::TyVar(number) => format!("tyvar\t{number}\n"),
        Entry::List(id) => format!("list\t{id}\n"),
        Entry::Fn(param, body) => format!("fn\t{param}\t{body}\n"),
        Entry::Set(set) => format!("set\t{}\n", set_text(set)),
        Entry::Neg(id) => format!("neg\t{id}\n"),
        Entry::Named(name, id) => format!("named\t{name}\t{id}\n"),
        Entry::Inter(a, b) => format!("inter\t{a}\t{b}\n"),
        Entry::Union(a, b) => format!("union\t{a}\t{b}\n"),
    }
}

/// A set's four fields, as tables and listings both write them.
pub fn set_text(set: &Set) -> String {
    let fields = joined(set.fields.iter().map(|(key, id)| format!("{key}:{id}")));
    let dyn_ty = joined(set.dyn_ty.iter().map(u32::to_string));
    let open = u8::from(set.open);
    format!("{fields}\t{dyn_ty}\t{open}\t{}", list_text(&set.optional))
}

pub fn list_text(numbers: &[u32]) -> String {
    joined(numbers.iter().map(u32::to_string))
}

/// Parted by commas, `-` if there are none.
fn joined(parts: impl Iterator<Item = String>) -> String {
    let mut text = String::new();
    for part in parts {
        if !text.is_empty() {
            text.push(',');
        }
        let _ = write!(text, "{part}");
    }
    if text.is_empty() {
        text.push('-');
    }
    text
}
