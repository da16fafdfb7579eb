//! Many texts in one stream: each is preceded by a line with a word, a name
//! and its length in bytes, parted by tabs.

use std::io::{self, BufRead, Write};

pub fn write(out: &mut impl Write, word: &str, name: &str, text: &[u8]) -> io::Result<()> {
    writeln!(out, "{word}\t{name}\t{}", text.len())?;
    out.write_all(text)
}

/// The next name and text, none at the end of the stream.
pub fn read(input: &mut impl BufRead, word: &str) -> io::Result<Option<(String, Vec<u8>)>> {
    let mut line = String::new();
    if input.read_line(&mut line)? == 0 {
        return Ok(None);
    }
    let fields: Vec<&str> = line.trim_end_matches('\n').split('\t').collect();
    let [first, name, length] = fields[..] else {
        return Err(bad(&line));
    };
    let length: usize = length.parse().map_err(|_| bad(&line))?;
    if first != word {
        return Err(bad(&line));
    }
    let mut text = vec![0; length];
    input.read_exact(&mut text)?;
    Ok(Some((name.to_string(), text)))
}

fn bad(line: &str) -> io::Error {
    let line = line.trim_end();
    io::Error::new(
        io::ErrorKind::InvalidData,
        format!("not a frame line: {line}"),
    )
}
