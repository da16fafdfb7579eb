//! The difference of two texts, marked.

use console::{measure_text_width, Style};
use similar::{ChangeTag, TextDiff};

/// A text, coloured on a terminal where the other lacks it, and carets below
/// that.
pub struct Marked {
    pub text: String,
    pub carets: String,
}

impl Marked {
    fn push(&mut self, token: &str, changed: Option<&Style>) {
        let caret = if changed.is_some() { "^" } else { " " };
        self.carets
            .push_str(&caret.repeat(measure_text_width(token)));
        match changed {
            Some(style) => self.text.push_str(&style.apply_to(token).to_string()),
            None => self.text.push_str(token),
        }
    }
}

/// Two signatures, word by word.
pub fn signatures(before: &str, after: &str) -> (Marked, Marked) {
    let (old, new) = (tokens(before), tokens(after));
    let diff = TextDiff::from_slices(&old, &new);
    let mut marked = (empty(), empty());
    for change in diff.iter_all_changes() {
        let token = change.value();
        match change.tag() {
            ChangeTag::Equal => {
                marked.0.push(token, None);
                marked.1.push(token, None);
            }
            ChangeTag::Delete => marked.0.push(token, Some(&gone())),
            ChangeTag::Insert => marked.1.push(token, Some(&come())),
        }
    }
    marked
}

/// The lines that one text has and the other lacks, after `-` or `+`.
pub fn lines(before: &str, after: &str) -> Vec<String> {
    let diff = TextDiff::from_lines(before, after);
    let changes = diff.iter_all_changes();
    let marked = changes.filter_map(|change| {
        let line = change.value().trim_end();
        match change.tag() {
            ChangeTag::Equal => None,
            ChangeTag::Delete => Some(gone().apply_to(format!("- {line}")).to_string()),
            ChangeTag::Insert => Some(come().apply_to(format!("+ {line}")).to_string()),
        }
    });
    marked.collect()
}

fn empty() -> Marked {
    Marked {
        text: String::new(),
        carets: String::new(),
    }
}

fn gone() -> Style {
    Style::new().red().bold().underlined()
}

fn come() -> Style {
    Style::new().green().bold().underlined()
}

/// Words, which a name or a type is, and single other characters.
fn tokens(text: &str) -> Vec<&str> {
    let mut tokens = Vec::new();
    let mut rest = text;
    while let Some(first) = rest.chars().next() {
        let word = rest.find(|char| !in_word(char)).unwrap_or(rest.len());
        let (token, behind) = rest.split_at(word.max(first.len_utf8()));
        tokens.push(token);
        rest = behind;
    }
    tokens
}

fn in_word(char: char) -> bool {
    char.is_alphanumeric() || "_'-?\"\\".contains(char)
}
