//! The lines of a listing, and those of each root.

use std::collections::HashMap;

use oracle::listing::{self, heading};
use oracle::{Form, Root, RootAnswer};

/// The line of a root that is refused.
pub fn refused_root(root: Root, number: u32) -> String {
    format!("refused\t{}\t{}\t{number}\n", root.id, root.sign())
}

/// The Rust's lines of a root.
pub fn of_rust(root: &RootAnswer) -> Vec<u8> {
    let listing = listing::write(Form::Plain, std::slice::from_ref(root));
    listing[heading(Form::Plain, 1).len()..].to_vec()
}

/// The lines of each root, without those before the first.
pub fn blocks(listing: &[u8]) -> Vec<&[u8]> {
    let mut starts = Vec::new();
    let mut at = 0;
    for line in listing.split_inclusive(|&b| b == b'\n') {
        if line.starts_with(b"root\t") || line.starts_with(b"refused\t") {
            starts.push(at);
        }
        at += line.len();
    }
    let ends = starts.iter().skip(1).copied().chain([listing.len()]);
    let bounds = starts.iter().zip(ends);
    bounds.map(|(&start, end)| &listing[start..end]).collect()
}

/// What canon_numbered writes where canon writes this listing: the line that
/// says so, and in each root its variables by the order of their lines.
pub fn numbered(plain: &[u8]) -> Vec<u8> {
    let blocks = blocks(plain);
    let mut text = heading(Form::Numbered, blocks.len()).into_bytes();
    for block in blocks {
        number_root(block, &mut text);
    }
    text
}

fn number_root(block: &[u8], text: &mut Vec<u8>) {
    let mut next = 0;
    for line in block.split_inclusive(|&b| b == b'\n') {
        match variable(line) {
            Some(word) => {
                text.extend_from_slice(word);
                text.extend(format!("\t{next}\n").into_bytes());
                next += 1;
            }
            None => text.extend_from_slice(line),
        }
    }
}

/// How many variables a root has.
pub fn variables(block: &[u8]) -> usize {
    let lines = block.split_inclusive(|&b| b == b'\n');
    lines.filter_map(variable).count()
}

/// The line of a variable up to its number.
fn variable(line: &[u8]) -> Option<&[u8]> {
    let fields: Vec<&[u8]> = line.split(|&b| b == b'\t').collect();
    match fields[..] {
        [node, b"tyvar", _] => Some(&line[..node.len() + b"\ttyvar".len()]),
        _ => None,
    }
}

/// The fields of a block's first line.
pub fn head(block: &[u8]) -> Vec<&str> {
    let line = block.split(|&b| b == b'\n').next().unwrap_or_default();
    let line = std::str::from_utf8(line).unwrap_or_default();
    line.split('\t').collect()
}

/// The number that refuses a root.
pub fn root_refusal(block: &[u8]) -> Option<u32> {
    match head(block)[..] {
        ["refused", _, _, number] => number.parse().ok(),
        _ => None,
    }
}

/// A block is an answer to this root: its line and as many nodes as that tells,
/// each over nodes before it, or its refusal by a limit.
pub fn is_answer(block: &[u8], root: Root) -> bool {
    let lines = block.iter().filter(|&&b| b == b'\n').count();
    let head = head(block);
    let well = match head[..] {
        ["refused", _, _, "6" | "7" | "8" | "9"] => lines == 1,
        ["root", _, _, "1" | "2", operations, "0" | "1", "0" | "1", nodes] => {
            let nodes = nodes.parse::<usize>();
            operations.parse::<u32>().is_ok()
                && nodes.is_ok_and(|nodes| nodes + 1 == lines)
                && type_of(block, &mut HashMap::new()).is_some()
        }
        _ => false,
    };
    well && block.ends_with(b"\n") && head[1..3] == [root.id.to_string(), root.sign().to_string()]
}

/// The types of two blocks are the same but for the order of members, and the
/// first lines are the same but for the node count.
pub fn same_but_order(ours: &[u8], theirs: &[u8]) -> bool {
    let (mine, other) = (head(ours), head(theirs));
    if mine.len() != 8 || other.len() != 8 || mine[..7] != other[..7] {
        return false;
    }
    let mut types = HashMap::new();
    let mine = type_of(ours, &mut types);
    mine.is_some() && mine == type_of(theirs, &mut types)
}

/// The number of the last node's type among `types`, where members have no
/// order.
fn type_of(block: &[u8], types: &mut HashMap<String, usize>) -> Option<usize> {
    let text = std::str::from_utf8(block).ok()?;
    let mut numbers: Vec<usize> = Vec::new();
    for line in text.lines().skip(1) {
        let (number, node) = line.split_once('\t')?;
        let node = with_types(node, &numbers).filter(|_| number == numbers.len().to_string())?;
        let next = types.len();
        numbers.push(*types.entry(node).or_insert(next));
    }
    numbers.last().copied()
}

/// A node's text with the type numbers of its children.
fn with_types(node: &str, numbers: &[usize]) -> Option<String> {
    let child = |text: &str| numbers.get(text.parse::<usize>().ok()?).copied();
    let children = |text: &str| -> Option<Vec<usize>> {
        let mut found = Vec::new();
        for part in text.split(',').filter(|&part| part != "-") {
            found.push(child(part)?);
        }
        Some(found)
    };
    let fields: Vec<&str> = node.split('\t').collect();
    let text = match fields[..] {
        [kind @ ("union" | "inter"), members] => {
            let mut members = children(members)?;
            members.sort_unstable();
            format!("{kind} {members:?}")
        }
        [kind @ ("list" | "neg"), a] => format!("{kind} {}", child(a)?),
        ["fn", a, b] => format!("fn {} {}", child(a)?, child(b)?),
        ["named", name, a] => format!("named {name} {}", child(a)?),
        ["set", fields, dyn_ty, open, optional] => {
            let mut text = String::from("set");
            for field in fields.split(',').filter(|&field| field != "-") {
                let (key, a) = field.split_once(':')?;
                text.push_str(&format!(" {key}:{}", child(a)?));
            }
            format!("{text} {:?} {open} {optional}", children(dyn_ty)?)
        }
        _ => node.to_string(),
    };
    Some(text)
}
