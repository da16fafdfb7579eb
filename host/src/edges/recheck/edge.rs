//! A call of recheck in a form, and what is expected of it.

use oracle::Form;

use crate::calls::{refused, Input, Recheck};
use crate::edges::check::{refused_with, writes};
use crate::input::draft::tabs;
use crate::recheck::model;
use crate::report::{watch, Tally};

/// A root's line, but for the number of its nodes.
pub const ROOT: &str = "root>0>+>1>1>0>0>";

pub struct Edges<'a> {
    pub recheck: Recheck,
    pub tally: &'a mut Tally,
}

impl Edges<'_> {
    pub fn form(&self) -> Form {
        self.recheck.form
    }

    /// Two tables and a plain listing, which gets the line that the form has.
    pub fn input(&self, old: &str, new: &str, listing: &str) -> Input {
        let listing = match (self.form(), listing.split_once('\n')) {
            (Form::Numbered, Some((first, rest))) => format!("{first}\nnumbered\n{rest}"),
            _ => listing.to_string(),
        };
        input(old, new, &listing)
    }

    pub fn same(&self, table: &str, listing: &str) -> Input {
        self.input(table, table, listing)
    }

    /// Where a line of a plain listing stands then.
    pub fn line(&self, line: u32) -> u32 {
        match self.form() {
            Form::Numbered if line > 1 => line + 1,
            _ => line,
        }
    }

    pub fn refused(&mut self, name: &str, input: &Input, number: u32, line: u32) {
        watch::begin(&input.text());
        let expected = model::answer(self.form(), input, || Ok(Vec::new()));
        let expected = expected.map(|answer| answer.map(|answer| answer.text));
        if expected != Ok(Err(refused(number, line))) {
            let doubt = format!("what is expected is in doubt: {expected:?}");
            return self.tally.take(name, Err(doubt));
        }
        let mut out = [0xa5; 100];
        let outcome = self.recheck.recheck(input, &mut out);
        self.tally.take(name, refused_with(outcome, number, line));
    }

    /// All roots are kept, and the listing is copied.
    pub fn kept(&mut self, name: &str, input: &Input) {
        let roots = input.new.windows(6).filter(|part| part == b"\nroot\t");
        let mut text = model::first_line(&vec![false; roots.count()]);
        text.extend(&input.listing);
        let mut out = vec![0xa5; text.len()];
        watch::begin(&input.text());
        let outcome = self.recheck.recheck(input, &mut out);
        self.tally.take(name, writes(outcome, &out, &text));
        let outcome = self.recheck.recheck(input, &mut out[..text.len() - 1]);
        let name = format!("{name}, one byte less");
        self.tally.take(&name, refused_with(outcome, 12, 0));
    }

    /// The one root is run again, whatever the old listing has of it.
    pub fn redone(&mut self, name: &str, input: &Input, listing: &[u8]) {
        self.answers(name, input, "redone\n", listing);
    }

    /// The first line, and the listing after it.
    pub fn answers(&mut self, name: &str, input: &Input, first: &str, listing: &[u8]) {
        let text = [first.as_bytes(), listing].concat();
        let mut out = vec![0xa5; text.len()];
        watch::begin(&input.text());
        let outcome = self.recheck.recheck(input, &mut out);
        self.tally.take(name, writes(outcome, &out, &text));
    }

    /// A listing of the one root of a table with two names; refused at a line,
    /// or kept.
    pub fn listing(&mut self, listing: &str, line: Option<u32>) {
        let name: String = listing.chars().take(80).collect();
        let input = self.same("budget>1\nname>a\nname>b\nprim>0\nroot>0>+\n", listing);
        match line {
            Some(line) => self.refused(&name, &input, 11, self.line(line)),
            None => self.kept(&name, &input),
        }
    }
}

/// Two tables and a listing as it is.
pub fn input(old: &str, new: &str, listing: &str) -> Input {
    Input {
        old: tabs(old),
        new: tabs(new),
        listing: tabs(listing),
    }
}
