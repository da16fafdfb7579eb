//! A refused call, in words.

use std::error::Error;
use std::fmt;

use crate::listing::Form;

/// The text that a refusal points into.
#[derive(Clone, Copy, Debug, PartialEq, Eq)]
pub enum Part {
    /// The table of canon and canon_root.
    Table,
    OldTable,
    NewTable,
    /// The old and the new table beside each other.
    Tables,
    OldListing,
    /// An old listing of this form, where the other one was asked for.
    ListingIn(Form),
}

impl fmt::Display for Part {
    fn fmt(&self, f: &mut fmt::Formatter<'_>) -> fmt::Result {
        f.write_str(match self {
            Part::Table => "the table",
            Part::OldTable => "the old table",
            Part::NewTable => "the new table",
            Part::Tables => "the tables",
            Part::OldListing | Part::ListingIn(_) => "the old listing",
        })
    }
}

/// A refused call: its number, and the line of the text that it points at,
/// counted from 1; 0 where no line is at fault.
#[derive(Clone, Copy, Debug, PartialEq, Eq)]
pub struct Refusal {
    pub number: u32,
    pub line: u32,
    pub part: Part,
}

impl Refusal {
    /// What the number says.
    pub fn words(&self) -> &'static str {
        if let Part::ListingIn(form) = self.part {
            return other_form_words(form);
        }
        match (self.number, self.line) {
            (1, _) => "the line is not in form or not in its place, or the budget line is missing here",
            (2, 0) => "the text is longer than 65,536 bytes",
            (2, _) => "a ceiling is passed: too many lines of this kind, too many ids and keys, or too long a name",
            (3, 0) => "the table has no entry with the id that was asked for",
            (3, _) => "an id, a key or a name number is out of range: no entry or name has it",
            (4, _) => "names or keys do not ascend",
            (5, _) => "a frozen entry, which has no type to show",
            (10, _) => {
                "the tables cannot be compared: the budget, the number of entries, or a name, pair, mark or root line differs; \
                 the new table needs a listing afresh, by canon or canon_numbered"
            }
            (11, 0) => {
                "the old listing is longer than 65,536 bytes; the new table needs a listing afresh, by canon or canon_numbered"
            }
            (11, _) => "the old listing is not in form here, or it is not for these roots in this order",
            (12, _) => "the text is longer than the lent output",
            (20, _) => "a lent scratch is shorter than stated",
            _ => "no such number is known",
        }
    }

    /// The line that is at fault, where `text` is the text pointed into.
    pub fn pointed<'a>(&self, text: &'a [u8]) -> Option<&'a [u8]> {
        let before = usize::try_from(self.line).ok()?.checked_sub(1)?;
        text.split(|byte| *byte == b'\n').nth(before)
    }
}

impl fmt::Display for Refusal {
    fn fmt(&self, f: &mut fmt::Formatter<'_>) -> fmt::Result {
        let words = self.words();
        match self.line {
            0 => write!(f, "refused {} for {}: {words}", self.number, self.part),
            line => write!(
                f,
                "refused {} at line {line} of {}: {words}",
                self.number, self.part
            ),
        }
    }
}

impl Error for Refusal {}

/// What is to be done with an old listing of this form.
fn other_form_words(form: Form) -> &'static str {
    match form {
        Form::Plain => {
            "it is plain; recheck takes it, and canon_numbered makes a numbered one afresh"
        }
        Form::Numbered => {
            "it is numbered; recheck_numbered takes it, and canon makes a plain one afresh"
        }
    }
}

/// What the number of a refused root says: the limit that it passed.
pub fn limit_words(number: u32) -> &'static str {
    match number {
        6 => "more than 96 keys would be in progress",
        7 => "a list would have more than 128 members",
        8 => "a pass would store more than 4,096 nodes",
        9 => "the nodes of a pass would take more than 16,384 cells",
        _ => "no such limit is known",
    }
}
