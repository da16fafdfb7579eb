//! A second, independent reading of an old listing: the lines of each root,
//! or the earliest line at fault.

use oracle::{Form, Root};

use crate::limits::{MEMBERS, NODES};

const TEXT_BYTES: usize = 65_536;
const CODES: u32 = 32;

/// The lines of each root, for a table of so many names and these roots.
pub fn read<'a>(
    form: Form,
    names: usize,
    roots: &[Root],
    listing: &'a [u8],
) -> Result<Vec<&'a [u8]>, u32> {
    if listing.len() > TEXT_BYTES {
        return Err(0);
    }
    let mut reading = Reading {
        text: listing,
        at: 0,
        line: 1,
    };
    reading.take(|fields| match *fields {
        ["answers", count] if count == roots.len().to_string() => Some(()),
        _ => None,
    })?;
    if form == Form::Numbered {
        reading.take(|fields| (*fields == ["numbered"]).then_some(()))?;
    }
    let mut blocks = Vec::new();
    for root in roots {
        let from = reading.at;
        let nodes = reading.take(|fields| root_line(root, fields))?;
        for number in 0..nodes {
            reading.take(|fields| node_line(names, number, fields))?;
        }
        blocks.push(&listing[from..reading.at]);
    }
    match reading.at == listing.len() {
        true => Ok(blocks),
        false => Err(reading.line),
    }
}

/// What is left to read, and the number of its first line.
struct Reading<'a> {
    text: &'a [u8],
    at: usize,
    line: u32,
}

impl Reading<'_> {
    /// Takes the next line, if there is one and it is as `form` wants it.
    fn take<T>(&mut self, form: impl FnOnce(&[&str]) -> Option<T>) -> Result<T, u32> {
        let rest = &self.text[self.at..];
        let end = rest.iter().position(|&b| b == b'\n').ok_or(self.line)?;
        let line = std::str::from_utf8(&rest[..end]).map_err(|_| self.line)?;
        let fields: Vec<&str> = line.split('\t').collect();
        let taken = form(&fields).ok_or(self.line)?;
        self.at += end + 1;
        self.line += 1;
        Ok(taken)
    }
}

/// How many nodes follow a root's line.
fn root_line(root: &Root, fields: &[&str]) -> Option<u32> {
    let (nodes, id, sign) = match *fields {
        ["root", id, sign, "1" | "2", operations, "0" | "1", "0" | "1", nodes] => {
            number(operations)?;
            let nodes = number(nodes).filter(|nodes| (1..=NODES as u32).contains(nodes))?;
            (nodes, id, sign)
        }
        ["refused", id, sign, "6" | "7" | "8" | "9"] => (0, id, sign),
        _ => return None,
    };
    let of_root = id == root.id.to_string() && sign == root.sign().to_string();
    of_root.then_some(nodes)
}

/// A line is node `i`'s.
fn node_line(names: usize, i: u32, fields: &[&str]) -> Option<()> {
    let (&first, node) = fields.split_first()?;
    let child = |text: &str| number(text).filter(|&child| child < i);
    let well = match *node {
        ["bottom" | "top"] => true,
        ["tyvar", any] => number(any).is_some(),
        ["prim", code] => number(code).is_some_and(|code| code < CODES),
        ["list" | "neg", a] => child(a).is_some(),
        ["fn", a, b] => child(a).is_some() && child(b).is_some(),
        ["named", name, a] => number(name).is_some() && child(a).is_some(),
        ["union" | "inter", members] => list(members, child)?.len() <= MEMBERS,
        ["set", fields, dyn_ty, "0" | "1", optional] => {
            let field = |text: &str| {
                let (key, a) = text.split_once(':')?;
                child(a).and(number(key))
            };
            ascends(&list(fields, field)?, names)
                && (dyn_ty == "-" || child(dyn_ty).is_some())
                && ascends(&list(optional, number)?, names)
        }
        _ => false,
    };
    (well && first == i.to_string()).then_some(())
}

/// A decimal as it is written: no sign, no leading zero, at most 32 bits.
fn number(text: &str) -> Option<u32> {
    let number: u32 = text.parse().ok()?;
    (number.to_string() == text).then_some(number)
}

fn list(text: &str, item: impl Fn(&str) -> Option<u32>) -> Option<Vec<u32>> {
    match text {
        "-" => Some(Vec::new()),
        _ => text.split(',').map(item).collect(),
    }
}

/// Keys ascend and are names.
fn ascends(keys: &[u32], names: usize) -> bool {
    keys.windows(2).all(|pair| pair[0] < pair[1]) && keys.iter().all(|&key| (key as usize) < names)
}
