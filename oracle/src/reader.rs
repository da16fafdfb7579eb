//! A second, independent reading of the table text: an accepted table as
//! values, or the refusal (numbers 1 to 5) with its line.

use crate::table::{is_escaped, Entry, Root, Set, Table};

const TEXT_BYTES: usize = 65_536;
const NAMES: usize = 1_024;
const NAME_BYTES: usize = 255;
const ENTRIES: usize = 2_048;
const CELLS: usize = 8_192;
const PAIRS: usize = 2_048;
const MARKS: usize = 512;
const ROOTS: usize = 64;

#[derive(Clone, Copy, Debug, PartialEq, Eq)]
pub struct Refusal {
    pub number: u32,
    pub line: usize,
}

impl Refusal {
    pub fn to_text(self) -> Vec<u8> {
        format!("refused\t{}\t{}\n", self.number, self.line).into_bytes()
    }
}

/// Sections in the order in which they must come.
#[derive(Clone, Copy, PartialEq, Eq, PartialOrd, Ord)]
enum Section {
    Budget,
    Names,
    Entries,
    Pairs,
    Marks,
    Roots,
}

/// A line in the form, before ceilings and order are looked at.
enum Line {
    Budget(u32),
    Name(Vec<u8>),
    Entry(Entry),
    Frozen,
    Pair(u32, u32),
    Mark(u32),
    Root(Root),
}

impl Line {
    fn section(&self) -> Section {
        match self {
            Line::Budget(_) => Section::Budget,
            Line::Name(_) => Section::Names,
            Line::Entry(_) | Line::Frozen => Section::Entries,
            Line::Pair(..) => Section::Pairs,
            Line::Mark(_) => Section::Marks,
            Line::Root(_) => Section::Roots,
        }
    }
}

pub fn read(text: &[u8]) -> Result<Table, Refusal> {
    if text.len() > TEXT_BYTES {
        return Err(Refusal { number: 2, line: 0 });
    }
    let mut reading = Reading::default();
    for (index, line) in text.split_inclusive(|&b| b == b'\n').enumerate() {
        let at = |number| Refusal {
            number,
            line: index + 1,
        };
        let line = line.strip_suffix(b"\n").ok_or(at(1))?;
        let line = parse_line(line).ok_or(at(1))?;
        reading.take(line, index + 1).map_err(at)?;
    }
    if reading.section.is_none() {
        return Err(Refusal { number: 1, line: 1 });
    }
    reading.check_ranges()?;
    Ok(reading.table)
}

#[derive(Default)]
struct Reading {
    table: Table,
    /// The section of the last line, none before the budget line.
    section: Option<Section>,
    /// Ids and keys in entries so far.
    cells: usize,
    /// Line of each entry and each root, for the ranges.
    entry_lines: Vec<usize>,
    root_lines: Vec<usize>,
}

impl Reading {
    /// Adds a line, or tells the number that refuses it.
    fn take(&mut self, line: Line, number: usize) -> Result<(), u32> {
        let section = line.section();
        let in_order = match self.section {
            None => section == Section::Budget,
            Some(last) => section != Section::Budget && section >= last,
        };
        if !in_order {
            return Err(1);
        }
        self.section = Some(section);
        match line {
            Line::Budget(budget) => self.table.budget = budget,
            Line::Name(name) => self.take_name(name)?,
            Line::Entry(entry) => self.take_entry(entry, number)?,
            Line::Frozen => {
                self.check_entry_room()?;
                return Err(5);
            }
            Line::Pair(a, b) => push(&mut self.table.pairs, (a, b), PAIRS)?,
            Line::Mark(id) => push(&mut self.table.marks, id, MARKS)?,
            Line::Root(root) => {
                push(&mut self.table.roots, root, ROOTS)?;
                self.root_lines.push(number);
            }
        }
        Ok(())
    }

    fn take_name(&mut self, name: Vec<u8>) -> Result<(), u32> {
        if name.len() > NAME_BYTES || self.table.names.len() == NAMES {
            return Err(2);
        }
        if self.table.names.last().is_some_and(|last| *last >= name) {
            return Err(4);
        }
        self.table.names.push(name);
        Ok(())
    }

    fn check_entry_room(&self) -> Result<(), u32> {
        if self.table.entries.len() == ENTRIES {
            return Err(2);
        }
        Ok(())
    }

    fn take_entry(&mut self, entry: Entry, number: usize) -> Result<(), u32> {
        self.check_entry_room()?;
        self.cells += cells(&entry);
        if self.cells > CELLS {
            return Err(2);
        }
        if let Entry::Set(set) = &entry {
            let keys: Vec<u32> = set.fields.iter().map(|field| field.0).collect();
            if !ascends(&keys) || !ascends(&set.optional) {
                return Err(4);
            }
        }
        self.table.entries.push(entry);
        self.entry_lines.push(number);
        Ok(())
    }

    fn check_ranges(&self) -> Result<(), Refusal> {
        let n = self.table.entries.len();
        let names = self.table.names.len();
        let entries = self.table.entries.iter().zip(&self.entry_lines);
        let roots = self.table.roots.iter().zip(&self.root_lines);
        let bad_entry = entries
            .filter(|(entry, _)| !in_range(entry, n, names))
            .map(|(_, &line)| line);
        let bad_root = roots
            .filter(|(root, _)| root.id as usize >= n)
            .map(|(_, &line)| line);
        match bad_entry.chain(bad_root).next() {
            Some(line) => Err(Refusal { number: 3, line }),
            None => Ok(()),
        }
    }
}

fn push<T>(list: &mut Vec<T>, item: T, ceiling: usize) -> Result<(), u32> {
    if list.len() == ceiling {
        return Err(2);
    }
    list.push(item);
    Ok(())
}

fn ascends(keys: &[u32]) -> bool {
    keys.windows(2).all(|pair| pair[0] < pair[1])
}

/// Ids and keys that count toward the ceiling of 8,192.
fn cells(entry: &Entry) -> usize {
    match entry {
        Entry::Var { lowers, uppers } => lowers.len() + uppers.len(),
        Entry::Prim(_) | Entry::TyVar(_) => 0,
        Entry::List(_) | Entry::Neg(_) | Entry::Named(..) => 1,
        Entry::Fn(..) | Entry::Inter(..) | Entry::Union(..) => 2,
        Entry::Set(set) => {
            2 * set.fields.len() + usize::from(set.dyn_ty.is_some()) + set.optional.len()
        }
    }
}

fn in_range(entry: &Entry, n: usize, names: usize) -> bool {
    let id = |id: &u32| (*id as usize) < n;
    let key = |key: &u32| (*key as usize) < names;
    match entry {
        Entry::Var { lowers, uppers } => lowers.iter().chain(uppers).all(id),
        Entry::Prim(_) | Entry::TyVar(_) => true,
        Entry::List(a) | Entry::Neg(a) => id(a),
        Entry::Fn(a, b) | Entry::Inter(a, b) | Entry::Union(a, b) => id(a) && id(b),
        Entry::Named(name, a) => key(name) && id(a),
        Entry::Set(set) => {
            set.fields.iter().all(|(k, a)| key(k) && id(a))
                && set.dyn_ty.iter().all(id)
                && set.optional.iter().all(key)
        }
    }
}

fn parse_line(line: &[u8]) -> Option<Line> {
    let fields: Vec<&[u8]> = line.split(|&b| b == b'\t').collect();
    let line = match fields[..] {
        [b"budget", n] => Line::Budget(number(n)?),
        [b"name", bytes] => Line::Name(unescape(bytes)?),
        [b"frozen"] => Line::Frozen,
        [b"pair", a, b] => Line::Pair(number(a)?, number(b)?),
        [b"mark", id] => Line::Mark(number(id)?),
        [b"root", id, sign] => Line::Root(Root {
            id: number(id)?,
            positive: match sign {
                b"+" => true,
                b"-" => false,
                _ => return None,
            },
        }),
        _ => Line::Entry(parse_entry(&fields)?),
    };
    Some(line)
}

fn parse_entry(fields: &[&[u8]]) -> Option<Entry> {
    let entry = match *fields {
        [b"var", lowers, uppers] => Entry::Var {
            lowers: list(lowers, number)?,
            uppers: list(uppers, number)?,
        },
        [b"prim", code] => Entry::Prim(number(code).filter(|&code| code <= 31)?),
        [b"tyvar", n] => Entry::TyVar(number(n)?),
        [b"list", id] => Entry::List(number(id)?),
        [b"fn", param, body] => Entry::Fn(number(param)?, number(body)?),
        [b"set", fields, dyn_ty, open, optional] => Entry::Set(Set {
            fields: list(fields, field)?,
            dyn_ty: match dyn_ty {
                b"-" => None,
                id => Some(number(id)?),
            },
            open: match open {
                b"0" => false,
                b"1" => true,
                _ => return None,
            },
            optional: list(optional, number)?,
        }),
        [b"neg", id] => Entry::Neg(number(id)?),
        [b"named", name, id] => Entry::Named(number(name)?, number(id)?),
        [b"inter", a, b] => Entry::Inter(number(a)?, number(b)?),
        [b"union", a, b] => Entry::Union(number(a)?, number(b)?),
        _ => return None,
    };
    Some(entry)
}

/// A decimal of at most 4,294,967,295 without a leading zero.
fn number(digits: &[u8]) -> Option<u32> {
    if digits.is_empty() || (digits.len() > 1 && digits[0] == b'0') {
        return None;
    }
    let mut value: u32 = 0;
    for &digit in digits {
        if !digit.is_ascii_digit() {
            return None;
        }
        value = value
            .checked_mul(10)?
            .checked_add(u32::from(digit - b'0'))?;
    }
    Some(value)
}

fn list<T>(bytes: &[u8], item: fn(&[u8]) -> Option<T>) -> Option<Vec<T>> {
    if bytes == b"-" {
        return Some(Vec::new());
    }
    bytes.split(|&b| b == b',').map(item).collect()
}

fn field(bytes: &[u8]) -> Option<(u32, u32)> {
    let colon = bytes.iter().position(|&b| b == b':')?;
    Some((number(&bytes[..colon])?, number(&bytes[colon + 1..])?))
}

/// A name's bytes; exactly the bytes that need an escape may have one.
fn unescape(bytes: &[u8]) -> Option<Vec<u8>> {
    let mut name = Vec::new();
    let mut rest = bytes;
    while let Some((&first, after)) = rest.split_first() {
        if first == b'\\' {
            let [high, low, after @ ..] = after else {
                return None;
            };
            let byte = hex(*high)? * 16 + hex(*low)?;
            if !is_escaped(byte) {
                return None;
            }
            name.push(byte);
            rest = after;
        } else if is_escaped(first) {
            return None;
        } else {
            name.push(first);
            rest = after;
        }
    }
    Some(name)
}

fn hex(digit: u8) -> Option<u8> {
    match digit {
        b'0'..=b'9' => Some(digit - b'0'),
        b'a'..=b'f' => Some(digit - b'a' + 10),
        _ => None,
    }
}
