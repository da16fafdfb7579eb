//! Cutting and patching: plain text work, with every search asserted.

/// One file of the text and what is made of it.
pub struct Source {
    /// Path in the checkout; the file made has the same name.
    pub path: &'static str,
    /// Put before the text: the names that the text's crates are found by.
    pub prelude: &'static str,
    /// The pieces that are taken, in order.
    pub pieces: &'static [Piece],
    /// Attribute lines of derive_more's Debug, which has no shim: a prefix
    /// and how many lines must begin with it.
    pub dropped: Option<(&'static str, usize)>,
    pub patches: &'static [Patch],
    pub counters: &'static [Counters],
}

/// From the first anchor (included) to the second (left out), then `tail`.
/// An empty anchor is the file's begin or end; a checkout's unit tests at the
/// end are left out.
pub struct Piece {
    pub from: &'static str,
    pub to: &'static str,
    pub tail: &'static str,
}

/// `find` must occur exactly once in the cut text.
pub struct Patch {
    pub name: &'static str,
    pub find: &'static str,
    pub put: &'static str,
}

/// Branch counters for the part of the text between two anchors. Each mark
/// text, with its marks taken out, must occur exactly once in that part, so
/// a counter can add a count and change nothing else. `@{name}` becomes a
/// statement, `@[name]` opens a block that counts and `@]` closes it, and
/// `@<name>` to `@>` count both outcomes of a test.
pub struct Counters {
    pub from: &'static str,
    pub to: &'static str,
    pub marks: &'static [&'static str],
}

struct Edit {
    name: String,
    start: usize,
    end: usize,
    put: String,
}

pub fn make(source: &Source, whole: &str, names: &mut Vec<String>) -> Result<String, String> {
    let tell = |fault: String| format!("{}: {fault}", source.path);
    let text = cut(source, whole).map_err(tell)?;
    let edits = edits(source, &text, names).map_err(tell)?;
    let body = apply(&text, edits).map_err(tell)?;
    Ok(format!("{}{body}", source.prelude))
}

fn cut(source: &Source, whole: &str) -> Result<String, String> {
    let mut text = String::new();
    for piece in source.pieces {
        let (start, end) = between(whole, piece.from, piece.to)?;
        let taken = &whole[start..end];
        let taken = match piece.to {
            "" => taken.split("#[cfg(test)]").next().unwrap_or(taken),
            _ => taken,
        };
        text.push_str(taken);
        text.push_str(piece.tail);
    }
    match source.dropped {
        Some((prefix, count)) => drop_lines(&text, prefix, count),
        None => Ok(text),
    }
}

fn drop_lines(text: &str, prefix: &str, count: usize) -> Result<String, String> {
    let is_dropped = |line: &&str| line.trim_start().starts_with(prefix);
    let found = text.lines().filter(is_dropped).count();
    if found != count {
        return Err(format!("{found} lines begin with `{prefix}`, not {count}"));
    }
    Ok(text
        .split_inclusive('\n')
        .filter(|line| !is_dropped(line))
        .collect())
}

fn edits(source: &Source, text: &str, names: &mut Vec<String>) -> Result<Vec<Edit>, String> {
    let mut edits = Vec::new();
    for patch in source.patches {
        let start = once(text, patch.find).map_err(|f| format!("patch {}: {f}", patch.name))?;
        edits.push(Edit {
            name: format!("patch {}", patch.name),
            start,
            end: start + patch.find.len(),
            put: patch.put.to_string(),
        });
    }
    for group in source.counters {
        let (start, end) = between(text, group.from, group.to)?;
        for mark in group.marks {
            let (find, put, name) = read_marks(mark, names)?;
            let at = once(&text[start..end], &find).map_err(|f| format!("counter {name}: {f}"))?;
            edits.push(Edit {
                name: format!("counter {name}"),
                start: start + at,
                end: start + at + find.len(),
                put,
            });
        }
    }
    Ok(edits)
}

/// Splits a mark text into what is searched and what is put, and numbers its
/// counters. The third is the first counter's name, for messages.
fn read_marks(mark: &str, names: &mut Vec<String>) -> Result<(String, String, String), String> {
    let first = names.len();
    let (mut find, mut put) = (String::new(), String::new());
    let mut rest = mark;
    while let Some(at) = rest.find('@') {
        find.push_str(&rest[..at]);
        put.push_str(&rest[..at]);
        rest = &rest[at + 1..];
        let kind = rest.chars().next();
        let close = match kind {
            Some('{') => '}',
            Some('[') => ']',
            Some('<') => '>',
            Some(']') => {
                put.push_str(" }");
                rest = &rest[1..];
                continue;
            }
            Some('>') => {
                put.push(')');
                rest = &rest[1..];
                continue;
            }
            _ => return Err(format!("unknown mark in `{mark}`")),
        };
        let end = rest.find(close);
        let end = end.ok_or_else(|| format!("unclosed mark in `{mark}`"))?;
        let (name, number) = (&rest[1..end], names.len());
        match kind {
            Some('<') => {
                put.push_str(&format!("crate::probe::either({number}, "));
                names.push(format!("{name}? yes"));
                names.push(format!("{name}? no"));
            }
            Some('[') => {
                put.push_str(&format!("{{ crate::probe::hit({number}); "));
                names.push(name.to_string());
            }
            _ => {
                put.push_str(&format!("crate::probe::hit({number}); "));
                names.push(name.to_string());
            }
        }
        rest = &rest[end + 1..];
    }
    find.push_str(rest);
    put.push_str(rest);
    let name = names.get(first).cloned();
    let name = name.ok_or_else(|| format!("no counter in `{mark}`"))?;
    Ok((find, put, name))
}

fn apply(text: &str, mut edits: Vec<Edit>) -> Result<String, String> {
    edits.sort_by_key(|edit| edit.start);
    let mut result = String::new();
    let mut done = 0;
    for edit in &edits {
        if edit.start < done {
            return Err(format!("{} overlaps the edit before it", edit.name));
        }
        result.push_str(&text[done..edit.start]);
        result.push_str(&edit.put);
        done = edit.end;
    }
    result.push_str(&text[done..]);
    Ok(result)
}

fn between(text: &str, from: &str, to: &str) -> Result<(usize, usize), String> {
    let start = if from.is_empty() {
        0
    } else {
        once(text, from)?
    };
    let after = start + from.len();
    let end = if to.is_empty() {
        text.len()
    } else {
        after + once(&text[after..], to)?
    };
    Ok((start, end))
}

fn once(text: &str, find: &str) -> Result<usize, String> {
    let mut places = text.match_indices(find);
    match (places.next(), places.next()) {
        (Some((at, _)), None) => Ok(at),
        (None, _) => Err(format!("search text not found: `{find}`")),
        (Some(_), Some(_)) => Err(format!("search text occurs more than once: `{find}`")),
    }
}
