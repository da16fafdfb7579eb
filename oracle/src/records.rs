//! The records of crates/examples/stdin: what a call is given, and the answer
//! that it must print. Each of the two stands behind a line with a word and
//! its length in bytes; the words are the call's name, and by what the answer
//! is known.

/// The word of an answer that the text gave.
pub const BY_RUST: &str = "by Rust";

pub struct Record<'a> {
    pub call: &'a str,
    pub given: &'a [u8],
    pub by: &'a str,
    pub answer: &'a [u8],
}

impl Record<'_> {
    pub fn to_text(&self) -> Vec<u8> {
        let mut text = part(self.call, self.given);
        text.extend(part(self.by, self.answer));
        text
    }
}

fn part(word: &str, bytes: &[u8]) -> Vec<u8> {
    let mut part = format!("{word}\t{:06}\n", bytes.len()).into_bytes();
    part.extend(bytes);
    part
}

/// The records of a text; none where it is not in form.
pub fn read(mut text: &[u8]) -> Option<Vec<Record<'_>>> {
    let mut records = Vec::new();
    while !text.is_empty() {
        let (call, given) = take_part(&mut text)?;
        let (by, answer) = take_part(&mut text)?;
        records.push(Record {
            call,
            given,
            by,
            answer,
        });
    }
    Some(records)
}

/// Takes a line and the bytes behind it off the front.
fn take_part<'a>(text: &mut &'a [u8]) -> Option<(&'a str, &'a [u8])> {
    let end = text.iter().position(|&b| b == b'\n')?;
    let (word, length) = std::str::from_utf8(&text[..end]).ok()?.split_once('\t')?;
    let (bytes, rest) = text[end + 1..].split_at_checked(length.parse().ok()?)?;
    *text = rest;
    Some((word, bytes))
}
