//! Two listings of one form beside each other: which roots have changed, and how.

use std::io;

use pekonusit::{Answer, Done, Form, Listing, Names, Rechecked, Root, View};

/// A root that recheck has kept or run again.
pub struct Checked {
    pub title: String,
    pub done: Done,
    pub signature: String,
    pub change: Option<Change>,
}

/// What a root was before.
pub struct Change {
    pub before: String,
    /// Its old and new nodes, where the signatures do not show what has
    /// changed.
    pub nodes: Option<(String, String)>,
}

/// The roots of a rechecked table. A kept root has no signature unless all are
/// asked for.
pub fn roots(
    table: &[u8],
    old_listing: &[u8],
    rechecked: &Rechecked,
    view: View,
    all: bool,
) -> io::Result<Vec<Checked>> {
    let names = Names::read(table);
    let old = Told::read(old_listing)?;
    let new = Told::read(rechecked.listing.as_bytes())?;
    let pairs = old.0.iter().zip(&new.0);
    let checked = pairs.zip(&rechecked.done).map(|((old, new), done)| {
        let shown = all || *done == Done::Redone;
        Checked {
            title: title(&new.root),
            done: *done,
            signature: match shown {
                true => new.root.signature(&names, view),
                false => String::new(),
            },
            change: change(old, new, &names, view),
        }
    });
    Ok(checked.collect())
}

/// The roots of a listing: each one's title and signature.
pub fn signatures(table: &[u8], listing: &str, view: View) -> io::Result<Vec<(String, String)>> {
    let names = Names::read(table);
    let listing = Listing::read(listing.as_bytes()).map_err(io::Error::other)?;
    let roots = listing.roots.iter();
    Ok(roots
        .map(|root| (title(root), root.signature(&names, view)))
        .collect())
}

/// Its id and sign, and whether the budget ran out.
fn title(root: &Root) -> String {
    let note = match &root.answer {
        Answer::Shown(shown) if shown.bailed => " (budget ran out)",
        _ => "",
    };
    format!("root {} {}{note}", root.id, root.sign)
}

fn change(old: &Lines, new: &Lines, names: &Names, view: View) -> Option<Change> {
    if old.root.same_type(&new.root) {
        return None;
    }
    let before = old.root.signature(names, view);
    let hidden = before == new.root.signature(names, view);
    Some(Change {
        before,
        nodes: hidden.then(|| (old.nodes.to_string(), new.nodes.to_string())),
    })
}

/// A root with the lines of its nodes.
struct Lines<'a> {
    root: Root,
    nodes: &'a str,
}

/// The roots of a listing with their lines.
struct Told<'a>(Vec<Lines<'a>>);

impl<'a> Told<'a> {
    fn read(text: &'a [u8]) -> io::Result<Self> {
        let listing = Listing::read(text).map_err(io::Error::other)?;
        let text = std::str::from_utf8(text).map_err(io::Error::other)?;
        let head = match listing.form {
            Form::Plain => 1,
            Form::Numbered => 2,
        };
        let (_, mut rest) = after_lines(text, head);
        let mut roots = Vec::new();
        for root in listing.roots {
            let count = match &root.answer {
                Answer::Shown(shown) => shown.nodes.len(),
                Answer::Refused(_) => 0,
            };
            let (nodes, behind) = after_lines(after_lines(rest, 1).1, count);
            roots.push(Lines { root, nodes });
            rest = behind;
        }
        Ok(Told(roots))
    }
}

/// The first so many lines, and the rest.
fn after_lines(text: &str, count: usize) -> (&str, &str) {
    let mut ends = text.match_indices('\n').map(|(at, _)| at + 1);
    let end = match count {
        0 => 0,
        count => ends.nth(count - 1).unwrap_or(text.len()),
    };
    text.split_at(end)
}
