//! Damaged tables from a seed: a small accepted table with every kind of
//! line, and one or two faults in it.

use crate::rng::Rng;
use crate::table::{name_line, Entry, Root, Set, Table};

type Lines = Vec<Vec<u8>>;

/// A fault and the words of the lines that it is put into.
struct Fault {
    name: &'static str,
    words: &'static [&'static str],
    make: fn(&mut Rng, &mut Lines, usize),
}

const ALL: &[&str] = &[
    "budget", "name", "var", "prim", "tyvar", "list", "fn", "set", "neg", "named", "inter",
    "union", "pair", "mark", "root",
];
/// Lines with a number in them.
const NUMBERED: &[&str] = &[
    "budget", "var", "prim", "tyvar", "list", "fn", "set", "neg", "named", "inter", "union",
    "pair", "mark", "root",
];
const LISTED: &[&str] = &["var", "set"];
/// Lines with ids that must be below n.
const WITH_IDS: &[&str] = &[
    "var", "list", "fn", "set", "neg", "named", "inter", "union", "root",
];
const ONE_SECTION: &[&str] = &["name", "var", "pair", "mark", "root"];

const FAULTS: &[Fault] = &[
    fault("word changed", ALL, change_word),
    fault("field dropped", ALL, drop_field),
    fault("field added", ALL, add_field),
    fault("field emptied", ALL, empty_field),
    fault("line deleted", ALL, delete_line),
    fault("line repeated", ALL, repeat_line),
    fault("line moved", ALL, move_line),
    fault("empty line", ALL, empty_line),
    fault("carriage return", ALL, carriage_return),
    fault("byte changed", ALL, change_byte),
    fault("byte deleted", ALL, delete_byte),
    fault("byte inserted", ALL, insert_byte),
    fault("line feed missing at the end", ALL, cut_text),
    fault("number badly written", NUMBERED, bad_number),
    fault("number too large", NUMBERED, large_number),
    fault("list badly written", LISTED, bad_list),
    fault("field of a set badly written", &["set"], bad_set_field),
    fault("open badly written", &["set"], bad_open),
    fault("keys out of order", &["set"], disordered_keys),
    fault("optional keys out of order", &["set"], disordered_optional),
    fault("key out of range", &["set"], far_key),
    fault("optional key out of range", &["set"], far_optional),
    fault("name number out of range", &["named"], far_name),
    fault("id out of range", WITH_IDS, far_id),
    fault("code above 31", &["prim"], bad_code),
    fault("sign badly written", &["root"], bad_sign),
    fault("escape badly written", &["name"], bad_escape),
    fault("byte without its escape", &["name"], raw_byte),
    fault("names out of order", &["name"], disordered_names),
    fault("name too long", &["name"], long_name),
    fault("frozen entry", &["var"], frozen),
    fault("frozen entry with a field", &["var"], frozen_with_field),
    fault("too many lines", ONE_SECTION, too_many),
    fault("too many, and another fault", ONE_SECTION, too_many_and_bad),
    fault("too many ids", &["var"], too_many_ids),
    fault("too many keys", &["set"], too_many_keys),
    fault("text too long", ALL, long_text),
    fault("nothing left", &["budget"], nothing),
];

const fn fault(
    name: &'static str,
    words: &'static [&'static str],
    make: fn(&mut Rng, &mut Lines, usize),
) -> Fault {
    Fault { name, words, make }
}

/// A damaged table and what was done to it. A few come out accepted.
pub fn table(seed: u64) -> (String, Vec<u8>) {
    let mut rng = Rng::new(seed);
    // Seeds in a row go through all faults and line kinds.
    let places: Vec<(&Fault, &str)> = FAULTS
        .iter()
        .flat_map(|fault| fault.words.iter().map(move |&word| (fault, word)))
        .collect();
    let mut lines = sound_lines(&mut rng);
    let first = places[(seed % places.len() as u64) as usize];
    let mut told = damage(&mut rng, &mut lines, first);
    if rng.chance(1, 4) {
        let second = rng.pick(&places);
        told = format!("{told}; {}", damage(&mut rng, &mut lines, second));
    }
    (told, lines.concat())
}

/// How many seeds in a row go through every fault in every kind of line.
pub fn places() -> usize {
    FAULTS.iter().map(|fault| fault.words.len()).sum()
}

fn damage(rng: &mut Rng, lines: &mut Lines, (fault, word): (&Fault, &str)) -> String {
    let found: Vec<usize> = (0..lines.len())
        .filter(|&i| first_field(&lines[i]) == word.as_bytes())
        .collect();
    // A first fault may have taken all such lines away.
    if !found.is_empty() {
        let at = rng.pick(&found);
        (fault.make)(rng, lines, at);
    }
    format!("{} in {word}", fault.name)
}

fn first_field(line: &[u8]) -> &[u8] {
    let end = line.iter().position(|&b| b == b'\t' || b == b'\n');
    &line[..end.unwrap_or(line.len())]
}

/// An accepted table with every kind of line, one line an item with its
/// line feed.
fn sound_lines(rng: &mut Rng) -> Lines {
    // Now and then a name that is not UTF-8, or a code without a counterpart.
    let last: &[u8] = if rng.chance(1, 5) {
        b"\xff"
    } else {
        b"\xc3\xa9"
    };
    let most = if rng.chance(1, 5) { 31 } else { 7 };
    let names: &[&[u8]] = &[b"", b"-", b"a\tb", b"b", b"c\\d", b"e\x7f", last];
    let id = |rng: &mut Rng| rng.range(0, 10);
    let mut entries = vec![
        Entry::Var {
            lowers: vec![id(rng), id(rng), 2],
            uppers: vec![id(rng), 3],
        },
        Entry::Prim(rng.range(0, most)),
        Entry::TyVar(rng.range(0, 40)),
        Entry::List(id(rng)),
        Entry::Fn(id(rng), id(rng)),
        Entry::Set(Set {
            fields: vec![(1, id(rng)), (3, id(rng)), (5, 0)],
            dyn_ty: Some(id(rng)),
            open: rng.chance(1, 2),
            optional: vec![0, 3, 6],
        }),
        Entry::Neg(id(rng)),
        Entry::Named(rng.range(0, 6), id(rng)),
        Entry::Inter(id(rng), id(rng)),
        Entry::Union(id(rng), id(rng)),
        Entry::Var {
            lowers: vec![],
            uppers: vec![],
        },
    ];
    rng.shuffle(&mut entries);
    let table = Table {
        budget: rng.range(0, 9),
        names: names.iter().map(|name| name.to_vec()).collect(),
        entries,
        pairs: vec![(0, 1), (rng.range(0, 12), 4_294_967_295)],
        marks: vec![id(rng), 77],
        roots: vec![
            Root {
                id: id(rng),
                positive: true,
            },
            Root {
                id: id(rng),
                positive: false,
            },
        ],
    };
    let text = table.to_text();
    text.split_inclusive(|&b| b == b'\n')
        .map(<[u8]>::to_vec)
        .collect()
}

/// The fields of a line, without its line feed.
fn fields(line: &[u8]) -> Lines {
    let line = line.strip_suffix(b"\n").unwrap_or(line);
    line.split(|&b| b == b'\t').map(<[u8]>::to_vec).collect()
}

fn join(fields: &[Vec<u8>]) -> Vec<u8> {
    let mut line = fields.join(&b'\t');
    line.push(b'\n');
    line
}

/// Changes one field, chosen among those that `wanted` holds for.
fn change_field(
    rng: &mut Rng,
    line: &mut Vec<u8>,
    wanted: fn(usize, &[u8]) -> bool,
    change: impl FnOnce(&mut Rng, &mut Vec<u8>),
) {
    let mut parts = fields(line);
    let found: Vec<usize> = (1..parts.len()).filter(|&i| wanted(i, &parts[i])).collect();
    if !found.is_empty() {
        let at = rng.pick(&found);
        change(rng, &mut parts[at]);
        *line = join(&parts);
    }
}

/// Puts one of these texts in place of a field.
fn put(
    rng: &mut Rng,
    line: &mut Vec<u8>,
    wanted: fn(usize, &[u8]) -> bool,
    texts: &[&'static [u8]],
) {
    let text = rng.pick(texts);
    change_field(rng, line, wanted, |_, field| *field = text.to_vec());
}

/// Puts one of these texts into a field, at any place.
fn put_in(rng: &mut Rng, line: &mut Vec<u8>, texts: &[&'static [u8]]) {
    let text = rng.pick(texts);
    change_field(rng, line, any_field, |rng, field| {
        let place = rng.below(field.len() + 1);
        field.splice(place..place, text.iter().copied());
    });
}

fn any_field(_: usize, _: &[u8]) -> bool {
    true
}

/// A field with a decimal in it.
fn has_digit(_: usize, field: &[u8]) -> bool {
    field.iter().any(u8::is_ascii_digit)
}

/// Puts `text` in place of one of the decimals of a field.
fn replace_number(rng: &mut Rng, field: &mut Vec<u8>, text: &[u8]) {
    let starts: Vec<usize> = (0..field.len())
        .filter(|&i| field[i].is_ascii_digit() && (i == 0 || !field[i - 1].is_ascii_digit()))
        .collect();
    if starts.is_empty() {
        return;
    }
    let start = rng.pick(&starts);
    let length = field[start..]
        .iter()
        .take_while(|b| b.is_ascii_digit())
        .count();
    field.splice(start..start + length, text.iter().copied());
}

fn change_word(rng: &mut Rng, lines: &mut Lines, at: usize) {
    let words: &[&[u8]] = &[
        b"", b"Var", b"vars", b"bool", b"answers", b"next", b" var", b"set",
    ];
    let mut parts = fields(&lines[at]);
    parts[0] = rng.pick(words).to_vec();
    lines[at] = join(&parts);
}

fn drop_field(rng: &mut Rng, lines: &mut Lines, at: usize) {
    let mut parts = fields(&lines[at]);
    let gone = rng.below(parts.len());
    parts.remove(gone);
    lines[at] = join(&parts);
}

fn add_field(rng: &mut Rng, lines: &mut Lines, at: usize) {
    let texts: &[&[u8]] = &[b"", b"0", b"-", b"+"];
    let mut parts = fields(&lines[at]);
    let place = rng.below(parts.len()) + 1;
    parts.insert(place, rng.pick(texts).to_vec());
    lines[at] = join(&parts);
}

fn empty_field(rng: &mut Rng, lines: &mut Lines, at: usize) {
    change_field(rng, &mut lines[at], any_field, |_, field| field.clear());
}

fn delete_line(_: &mut Rng, lines: &mut Lines, at: usize) {
    lines.remove(at);
}

fn repeat_line(_: &mut Rng, lines: &mut Lines, at: usize) {
    lines.insert(at, lines[at].clone());
}

fn move_line(rng: &mut Rng, lines: &mut Lines, at: usize) {
    let line = lines.remove(at);
    let place = rng.below(lines.len() + 1);
    lines.insert(place, line);
}

fn empty_line(rng: &mut Rng, lines: &mut Lines, at: usize) {
    let place = at + rng.below(2);
    lines.insert(place, b"\n".to_vec());
}

fn carriage_return(_: &mut Rng, lines: &mut Lines, at: usize) {
    let end = lines[at].len() - 1;
    lines[at].insert(end, b'\r');
}

fn change_byte(rng: &mut Rng, lines: &mut Lines, at: usize) {
    let place = rng.below(lines[at].len());
    lines[at][place] = some_byte(rng);
}

fn delete_byte(rng: &mut Rng, lines: &mut Lines, at: usize) {
    let place = rng.below(lines[at].len());
    lines[at].remove(place);
}

fn insert_byte(rng: &mut Rng, lines: &mut Lines, at: usize) {
    let place = rng.below(lines[at].len() + 1);
    let byte = some_byte(rng);
    lines[at].insert(place, byte);
}

/// Any byte, more often one that means something in a table.
fn some_byte(rng: &mut Rng) -> u8 {
    match rng.chance(1, 3) {
        true => rng.range(0, 255) as u8,
        false => rng.pick(b"0123456789\t\n-+,:\\ \x00\x7fax"),
    }
}

/// Cuts the text behind the line, without its line feed.
fn cut_text(rng: &mut Rng, lines: &mut Lines, at: usize) {
    lines.truncate(at + 1);
    let keep = match rng.chance(1, 2) {
        true => lines[at].len() - 1,
        false => rng.below(lines[at].len()),
    };
    lines[at].truncate(keep);
}

fn bad_number(rng: &mut Rng, lines: &mut Lines, at: usize) {
    let texts: &[&[u8]] = &[
        b"00", b"01", b"+1", b"-1", b" 1", b"1 ", b"0x1", b"a", b"", b"1.0", b"--",
    ];
    let text = rng.pick(texts);
    change_field(rng, &mut lines[at], has_digit, |rng, field| {
        replace_number(rng, field, text)
    });
}

fn large_number(rng: &mut Rng, lines: &mut Lines, at: usize) {
    let texts: &[&[u8]] = &[
        b"4294967295",
        b"4294967296",
        b"4294967300",
        b"9999999999",
        b"18446744073709551616",
        b"42949672950",
    ];
    let text = rng.pick(texts);
    change_field(rng, &mut lines[at], has_digit, |rng, field| {
        replace_number(rng, field, text)
    });
}

fn bad_list(rng: &mut Rng, lines: &mut Lines, at: usize) {
    let texts: &[&[u8]] = &[b",", b",,", b"-,", b",-", b";", b":", b" "];
    put_in(rng, &mut lines[at], texts);
}

fn is_first(index: usize, _: &[u8]) -> bool {
    index == 1
}
fn is_second(index: usize, _: &[u8]) -> bool {
    index == 2
}
fn is_third(index: usize, _: &[u8]) -> bool {
    index == 3
}
fn is_fourth(index: usize, _: &[u8]) -> bool {
    index == 4
}

fn bad_set_field(rng: &mut Rng, lines: &mut Lines, at: usize) {
    let texts: &[&[u8]] = &[
        b"1", b"1:", b":1", b"1:1:1", b"1=1", b"-:1", b"1:-", b"01:1", b"1,1", b"0:0,-",
    ];
    put(rng, &mut lines[at], is_first, texts);
}

fn bad_open(rng: &mut Rng, lines: &mut Lines, at: usize) {
    let texts: &[&[u8]] = &[b"2", b"00", b"01", b"-", b"", b"+", b"10"];
    put(rng, &mut lines[at], is_third, texts);
}

fn disordered_keys(rng: &mut Rng, lines: &mut Lines, at: usize) {
    let texts: &[&[u8]] = &[
        b"1:0,1:0",
        b"3:0,1:0",
        b"1:0,3:1,3:2",
        b"5:0,4:0,3:0",
        b"9:0,2:0",
    ];
    put(rng, &mut lines[at], is_first, texts);
}

fn disordered_optional(rng: &mut Rng, lines: &mut Lines, at: usize) {
    let texts: &[&[u8]] = &[b"0,0", b"1,0", b"0,3,2", b"6,6", b"9,2"];
    put(rng, &mut lines[at], is_fourth, texts);
}

fn far_key(rng: &mut Rng, lines: &mut Lines, at: usize) {
    let texts: &[&[u8]] = &[b"7:0", b"0:0,8:1", b"4294967295:0", b"6:0,7:99"];
    put(rng, &mut lines[at], is_first, texts);
}

fn far_optional(rng: &mut Rng, lines: &mut Lines, at: usize) {
    let texts: &[&[u8]] = &[b"7", b"0,8", b"4294967295"];
    put(rng, &mut lines[at], is_fourth, texts);
}

fn far_name(rng: &mut Rng, lines: &mut Lines, at: usize) {
    let texts: &[&[u8]] = &[b"7", b"8", b"4294967295"];
    put(rng, &mut lines[at], is_first, texts);
}

fn far_id(rng: &mut Rng, lines: &mut Lines, at: usize) {
    let texts: &[&[u8]] = &[b"11", b"12", b"4294967295"];
    let text = rng.pick(texts);
    match first_field(&lines[at]) {
        // A set's first field ends with an id, its second is one; named's
        // second is its id.
        b"set" if rng.chance(1, 2) => change_field(rng, &mut lines[at], is_first, |_, field| {
            let id = field.iter().rposition(|&b| b == b':').map_or(0, |i| i + 1);
            field.splice(id.., text.iter().copied());
        }),
        b"set" | b"named" => change_field(rng, &mut lines[at], is_second, |_, field| {
            *field = text.to_vec();
        }),
        _ => change_field(rng, &mut lines[at], has_digit, |rng, field| {
            replace_number(rng, field, text)
        }),
    }
}

fn bad_code(rng: &mut Rng, lines: &mut Lines, at: usize) {
    let texts: &[&[u8]] = &[b"32", b"33", b"4294967295", b"031", b"-"];
    put(rng, &mut lines[at], is_first, texts);
}

fn bad_sign(rng: &mut Rng, lines: &mut Lines, at: usize) {
    let texts: &[&[u8]] = &[b"", b"++", b"+-", b"p", b"0", b"=", b" +"];
    put(rng, &mut lines[at], is_second, texts);
}

fn bad_escape(rng: &mut Rng, lines: &mut Lines, at: usize) {
    let texts: &[&[u8]] = &[
        b"\\", b"\\0", b"\\5C", b"\\1F", b"\\20", b"\\61", b"\\ff", b"\\80", b"\\g0", b"\\n",
        b"\\\\", b"\\x09", b"\\7e", b"\\5b",
    ];
    put_in(rng, &mut lines[at], texts);
}

fn raw_byte(rng: &mut Rng, lines: &mut Lines, at: usize) {
    let texts: &[&[u8]] = &[
        b"\x00", b"\x01", b"\x08", b"\t", b"\x0b", b"\r", b"\x1f", b"\x7f",
    ];
    put_in(rng, &mut lines[at], texts);
}

fn disordered_names(rng: &mut Rng, lines: &mut Lines, at: usize) {
    // Names stand in lines 2 to 8.
    let other = 1 + rng.below(7);
    if other < lines.len() && first_field(&lines[other]) == b"name" && other != at {
        lines.swap(at, other);
    } else {
        lines.insert(at, lines[at].clone());
    }
}

fn long_name(rng: &mut Rng, lines: &mut Lines, at: usize) {
    let length = rng.pick(&[255, 256, 257, 300]);
    let byte = rng.pick(b"\x00y");
    lines[at] = name_line(&vec![byte; length]);
}

fn frozen(_: &mut Rng, lines: &mut Lines, at: usize) {
    lines[at] = b"frozen\n".to_vec();
}

fn frozen_with_field(rng: &mut Rng, lines: &mut Lines, at: usize) {
    let texts: &[&[u8]] = &[b"frozen\t0\n", b"frozen\t\n", b"frozen \n"];
    lines[at] = rng.pick(texts).to_vec();
}

/// Fills the section of the line to its ceiling or one beyond it.
fn too_many(rng: &mut Rng, lines: &mut Lines, at: usize) {
    let word = first_field(&lines[at]).to_vec();
    let (ceiling, mut made): (usize, Lines) = match &word[..] {
        b"name" => {
            let names = 0..1_100_u32;
            (1_024, names.map(|i| name_line(&i.to_be_bytes())).collect())
        }
        b"var" => (2_048, vec![b"prim\t0\n".to_vec(); 2_100]),
        b"pair" => (2_048, vec![b"pair\t0\t0\n".to_vec(); 2_100]),
        b"mark" => (512, vec![b"mark\t0\n".to_vec(); 600]),
        _ => (64, vec![b"root\t0\t+\n".to_vec(); 100]),
    };
    if word == b"var" {
        // The entries already there stay: the new ones come before them.
        let entries = lines.iter().filter(|l| is_entry_line(l)).count();
        made.truncate(ceiling + rng.below(2) - entries.min(ceiling));
        lines.splice(at..at, made);
    } else {
        made.truncate(ceiling + rng.below(2));
        let first = lines.iter().position(|l| first_field(l) == &word[..]);
        lines.retain(|line| first_field(line) != &word[..]);
        let first = first.unwrap_or(lines.len());
        lines.splice(first..first, made);
    }
}

fn is_entry_line(line: &[u8]) -> bool {
    let word = first_field(line);
    !matches!(word, b"budget" | b"name" | b"pair" | b"mark" | b"root")
}

/// One line too many, which has another fault too.
fn too_many_and_bad(rng: &mut Rng, lines: &mut Lines, at: usize) {
    let word = first_field(&lines[at]).to_vec();
    let entry = word == b"var";
    too_many(rng, lines, at);
    let last = lines.iter().rposition(|l| match entry {
        true => is_entry_line(l),
        false => first_field(l) == &word[..],
    });
    let bad: &[&[u8]] = match &word[..] {
        b"name" => &[b"name\t\n", b"name\ta\\\n"],
        b"var" => &[
            b"frozen\n",
            b"set\t1:0,0:0\t-\t0\t-\n",
            b"prim\t32\n",
            b"list\t9999\n",
        ],
        b"pair" => &[b"pair\t0\n"],
        b"mark" => &[b"mark\t-\n"],
        _ => &[b"root\t99\t+\n", b"root\t0\t*\n"],
    };
    if let Some(last) = last {
        lines.insert(last + 1, rng.pick(bad).to_vec());
    }
}

/// Ids up to the ceiling of 8,192 or a little beyond it.
fn too_many_ids(rng: &mut Rng, lines: &mut Lines, at: usize) {
    let count = rng.range(8_150, 8_192) as usize;
    let ids = vec!["0"; count].join(",");
    lines[at] = match rng.chance(1, 2) {
        true => format!("var\t{ids}\t-\n"),
        false => format!("var\t-\t{ids}\n"),
    }
    .into_bytes();
}

/// The same with fields and optional keys, which count too.
fn too_many_keys(rng: &mut Rng, lines: &mut Lines, at: usize) {
    let keys = rng.pick(&[2_700, 2_725, 2_730]);
    let fields: Vec<String> = (0..keys).map(|key| format!("{key}:0")).collect();
    let optional: Vec<String> = (0..keys).map(|key| key.to_string()).collect();
    let (fields, optional) = (fields.join(","), optional.join(","));
    lines[at] = format!("set\t{fields}\t0\t1\t{optional}\n").into_bytes();
}

/// 65,536 bytes or a few more, in the line or behind the last one.
fn long_text(rng: &mut Rng, lines: &mut Lines, at: usize) {
    let length: usize = lines.iter().map(Vec::len).sum();
    let more = (65_536 + rng.below(3)).saturating_sub(length);
    let end = lines[at].len().saturating_sub(1);
    lines[at].splice(end..end, vec![b'0'; more]);
}

fn nothing(rng: &mut Rng, lines: &mut Lines, _: usize) {
    let texts: &[&[u8]] = &[b"", b"\n", b"budget", b"budget\t1", b"root\t0\t+\n"];
    *lines = vec![rng.pick(texts).to_vec()];
}
