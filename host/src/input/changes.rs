//! Changes of a text: its bits and bytes, ranges, lines and numbers.

use oracle::rng::Rng;

/// One change. `other` makes a text to take bytes from, and `own` makes a
/// change that only such texts have.
pub fn change(
    rng: &mut Rng,
    text: &mut Vec<u8>,
    other: fn(&mut Rng) -> Vec<u8>,
    own: fn(&mut Rng, &mut Vec<u8>),
) {
    if text.is_empty() {
        return text.push(b'\n');
    }
    let at = rng.below(text.len());
    let length = rng.below(40).min(text.len() - at);
    match rng.below(12) {
        0 => text[at] ^= 1 << rng.below(8),
        1 => text[at] = meaning_byte(rng),
        2 => text.insert(at, meaning_byte(rng)),
        3 => {
            text.remove(at);
        }
        4 => text.truncate(at),
        5 => {
            text.drain(at..at + length);
        }
        6 => {
            let other = other(rng);
            splice(rng, text, at, &other);
        }
        7 => swap_lines(rng, text),
        8 => repeat_line(rng, text),
        9 | 10 => change_number(rng, text),
        _ => own(rng, text),
    }
}

pub fn meaning_byte(rng: &mut Rng) -> u8 {
    rng.pick(b"0123456789\t\t\n\n-+,:\\ax\x00\x7f\xff")
}

/// Bytes of another text, from any place.
fn splice(rng: &mut Rng, text: &mut Vec<u8>, at: usize, other: &[u8]) {
    let from = rng.below(other.len());
    let to = from + rng.below(200).min(other.len() - from);
    text.splice(at..at, other[from..to].iter().copied());
}

pub fn line_bounds(text: &[u8]) -> Vec<(usize, usize)> {
    let mut at = 0;
    let lines = text.split_inclusive(|&b| b == b'\n');
    lines
        .map(|line| {
            at += line.len();
            (at - line.len(), at)
        })
        .collect()
}

pub fn swap_lines(rng: &mut Rng, text: &mut Vec<u8>) {
    let lines = line_bounds(text);
    let (a, b) = (rng.below(lines.len()), rng.below(lines.len()));
    let ((a, b), (c, d)) = (lines[a.min(b)], lines[a.max(b)]);
    if b <= c {
        let changed = [
            &text[..a],
            &text[c..d],
            &text[b..c],
            &text[a..b],
            &text[d..],
        ]
        .concat();
        *text = changed;
    }
}

pub fn repeat_line(rng: &mut Rng, text: &mut Vec<u8>) {
    let lines = line_bounds(text);
    let (from, to) = rng.pick(&lines);
    let (at, _) = rng.pick(&lines);
    let line = text[from..to].to_vec();
    for _ in 0..rng.pick(&[1, 1, 1, 2, 70]) {
        text.splice(at..at, line.iter().copied());
    }
}

/// Another number in place of one.
fn change_number(rng: &mut Rng, text: &mut Vec<u8>) {
    let from = rng.below(text.len());
    let Some(start) = text[from..].iter().position(u8::is_ascii_digit) else {
        return;
    };
    let start = from + start;
    let digits = text[start..].iter().take_while(|b| b.is_ascii_digit());
    let end = start + digits.count();
    let number = match rng.below(8) {
        0 => "4294967295".to_string(),
        1 => "4294967296".to_string(),
        2 => "99999999999999999999999999999999".to_string(),
        3 => "2048".to_string(),
        4 => format!("0{}", rng.below(100)),
        _ => rng.below(20).to_string(),
    };
    text.splice(start..end, number.into_bytes());
}
