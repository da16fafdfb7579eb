//! The calls with scratch of their own.

use crate::lengths;
use crate::listing::{Form, Sign};
use crate::raw::{self, Outcome};
use crate::refusal::{Part, Refusal};

/// The output that is lent at first; it grows where a text is longer.
const OUTPUT: usize = 65_536;

/// The calls and what is lent to them. A thread that calls needs 2 MiB of
/// stack.
pub struct Calls {
    out: Vec<u8>,
    draft: Vec<u8>,
    old: Vec<u32>,
    table: Vec<u32>,
    arena: Vec<u32>,
    work: Vec<u32>,
}

/// Whether recheck has copied a root's lines or run it again.
#[derive(Clone, Copy, Debug, PartialEq, Eq)]
pub enum Done {
    Kept,
    Redone,
}

/// What recheck gives: a word for each root, and the new table's listing.
#[derive(Clone, Debug, PartialEq, Eq)]
pub struct Rechecked {
    pub done: Vec<Done>,
    pub listing: String,
}

impl Default for Calls {
    fn default() -> Self {
        Calls::new()
    }
}

impl Calls {
    pub fn new() -> Self {
        Calls {
            out: vec![0; OUTPUT],
            draft: vec![0; lengths::DRAFT],
            old: vec![0; lengths::TABLE],
            table: vec![0; lengths::TABLE],
            arena: vec![0; lengths::ARENA.max(lengths::RECHECK_ARENA)],
            work: vec![0; lengths::WORK],
        }
    }

    /// The listing of a table.
    pub fn canon(&mut self, table: &[u8]) -> Result<String, Refusal> {
        self.canon_in(Form::Plain, table)
    }

    /// The numbered listing of a table.
    pub fn canon_numbered(&mut self, table: &[u8]) -> Result<String, Refusal> {
        self.canon_in(Form::Numbered, table)
    }

    /// The listing of a table in this form.
    pub fn canon_in(&mut self, form: Form, table: &[u8]) -> Result<String, Refusal> {
        let text = self.text(|calls| calls.canon_once(form, table));
        text.map_err(|refused| refused.of(Part::Table))
    }

    /// The lines of one root of a table.
    pub fn canon_root(&mut self, table: &[u8], id: u32, sign: Sign) -> Result<String, Refusal> {
        let text = self.text(|calls| calls.canon_root_once(table, id, sign));
        text.map_err(|refused| refused.of(Part::Table))
    }

    /// The listing of the new table, given the old one and its listing.
    pub fn recheck(
        &mut self,
        old: &[u8],
        new: &[u8],
        listing: &[u8],
    ) -> Result<Rechecked, Refusal> {
        self.recheck_in(Form::Plain, old, new, listing)
    }

    /// The same with a numbered listing before and after.
    pub fn recheck_numbered(
        &mut self,
        old: &[u8],
        new: &[u8],
        listing: &[u8],
    ) -> Result<Rechecked, Refusal> {
        self.recheck_in(Form::Numbered, old, new, listing)
    }

    /// The same with a listing in this form before and after.
    pub fn recheck_in(
        &mut self,
        form: Form,
        old: &[u8],
        new: &[u8],
        listing: &[u8],
    ) -> Result<Rechecked, Refusal> {
        match self.text(|calls| calls.recheck_once(form, old, new, listing)) {
            Ok(text) => Ok(Rechecked::read(&text)),
            Err(refused) => Err(refused.of(match refused.number {
                10 => Part::Tables,
                11 => refused.in_listing(form, listing),
                _ if self.accepts(old) => Part::NewTable,
                _ => Part::OldTable,
            })),
        }
    }

    /// Whether a table is refused for nothing but an id that no table has.
    fn accepts(&mut self, table: &[u8]) -> bool {
        let outcome = self.canon_root_once(table, u32::MAX, Sign::Output);
        outcome == Outcome::Refused { number: 3, line: 0 }
    }

    fn canon_once(&mut self, form: Form, table: &[u8]) -> Outcome {
        raw::canon(
            form,
            table,
            &mut self.out,
            &mut self.draft,
            &mut self.table,
            &mut self.arena,
            &mut self.work,
        )
    }

    fn canon_root_once(&mut self, table: &[u8], id: u32, sign: Sign) -> Outcome {
        raw::canon_root(
            table,
            id,
            sign.number(),
            &mut self.out,
            &mut self.draft,
            &mut self.table,
            &mut self.arena,
            &mut self.work,
        )
    }

    fn recheck_once(&mut self, form: Form, old: &[u8], new: &[u8], listing: &[u8]) -> Outcome {
        raw::recheck(
            form,
            old,
            new,
            listing,
            &mut self.out,
            &mut self.draft,
            &mut self.old,
            &mut self.table,
            &mut self.arena,
            &mut self.work,
        )
    }

    /// The text of a call, or its refusal. Where the text does not fit, the
    /// call is made again with twice the output.
    fn text(&mut self, call: impl Fn(&mut Self) -> Outcome) -> Result<String, Refused> {
        // A call wipes all that is lent: what has grown once does not stay.
        self.out.truncate(OUTPUT);
        self.draft.truncate(lengths::DRAFT);
        loop {
            match call(self) {
                Outcome::Written(length) => {
                    let text = &self.out[..length as usize];
                    let text = String::from_utf8(text.to_vec());
                    return Ok(text.expect("a listing is made of ASCII"));
                }
                Outcome::Refused { number: 12, .. } => self.grow(),
                Outcome::Refused { number, line } => return Err(Refused { number, line }),
            }
        }
    }

    /// The draft grows too: a text that it cannot hold is made twice.
    fn grow(&mut self) {
        self.out.resize(self.out.len() * 2, 0);
        self.draft.resize(self.out.len(), 0);
    }
}

/// A refusal that does not know yet where it points.
struct Refused {
    number: u32,
    line: u32,
}

impl Refused {
    /// The old listing, which may be of another form than was asked for: that
    /// is a fault of its second line.
    fn in_listing(&self, asked: Form, listing: &[u8]) -> Part {
        match Form::told(listing) {
            Some(form) if form != asked && self.line == 2 => Part::ListingIn(form),
            _ => Part::OldListing,
        }
    }

    fn of(&self, part: Part) -> Refusal {
        Refusal {
            number: self.number,
            line: self.line,
            part,
        }
    }
}

impl Rechecked {
    /// Parts the line of `kept` and `redone` from the listing.
    fn read(text: &str) -> Self {
        let (words, listing) = text.split_once('\n').expect("recheck writes a first line");
        let done = words.split_terminator('\t').map(|word| match word {
            "kept" => Done::Kept,
            _ => Done::Redone,
        });
        Rechecked {
            done: done.collect(),
            listing: listing.to_string(),
        }
    }
}
