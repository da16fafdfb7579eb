//! One show: its tables, its listing, and what becomes of them.

use std::ffi::OsString;
use std::io;
use std::path::{Path, PathBuf};

use pekonusit::{Calls, Done, Form, Part, Refusal, View};

use crate::check::{self, Checked};
use crate::files::{self, Beside};

/// A show by the name of its files.
pub struct Show {
    pub name: OsString,
    pub old: PathBuf,
    pub new: PathBuf,
    pub listing: PathBuf,
}

/// What a show came to.
pub enum Outcome {
    Rechecked(Vec<Checked>, Option<Beside>),
    /// It had no old table or no listing. Its roots' titles and signatures.
    New(Vec<(String, String)>, Beside),
    /// Why, in words.
    Refused(String),
}

impl Show {
    pub fn new(name: &OsString, old: &Path, new: &Path, listings: &Path) -> Self {
        Show {
            name: name.clone(),
            old: files::of(old, name, files::TABLE),
            new: files::of(new, name, files::TABLE),
            listing: files::of(listings, name, files::LISTING),
        }
    }

    /// Rechecks the show. Its new listing is written beside the old one, in the
    /// same form.
    pub fn check(&self, calls: &mut Calls, form: Form, view: View) -> Outcome {
        let outcome = self.try_check(calls, form, view);
        outcome.unwrap_or_else(|trouble| Outcome::Refused(trouble.to_string()))
    }

    fn try_check(&self, calls: &mut Calls, form: Form, view: View) -> io::Result<Outcome> {
        let beside = Beside::new(&self.listing)?;
        let new = files::read(&self.new)?;
        let old = files::read_if_there(&self.old)?;
        let listing = files::read_if_there(&self.listing)?;
        match (old, listing) {
            (Some(old), Some(listing)) => {
                let texts = Texts { old, new, listing };
                texts.recheck(calls, form, view, beside)
            }
            _ => fresh(&new, calls, form, view, beside),
        }
    }
}

/// What recheck reads.
pub struct Texts {
    pub old: Vec<u8>,
    pub new: Vec<u8>,
    pub listing: Vec<u8>,
}

impl Texts {
    fn recheck(
        &self,
        calls: &mut Calls,
        form: Form,
        view: View,
        beside: Beside,
    ) -> io::Result<Outcome> {
        let rechecked = match calls.recheck_in(form, &self.old, &self.new, &self.listing) {
            Ok(rechecked) => rechecked,
            Err(refusal) => return Ok(Outcome::Refused(self.explained(&refusal))),
        };
        let roots = check::roots(&self.new, &self.listing, &rechecked, view, false)?;
        if rechecked.listing.as_bytes() == self.listing {
            return Ok(Outcome::Rechecked(roots, None));
        }
        beside.write(&rechecked.listing)?;
        Ok(Outcome::Rechecked(roots, Some(beside)))
    }

    /// A refusal with the line that it points at.
    pub fn explained(&self, refusal: &Refusal) -> String {
        let text = match refusal.part {
            Part::OldTable => &self.old,
            Part::OldListing | Part::ListingIn(_) => &self.listing,
            _ => &self.new,
        };
        explained(refusal, text)
    }
}

fn fresh(
    new: &[u8],
    calls: &mut Calls,
    form: Form,
    view: View,
    beside: Beside,
) -> io::Result<Outcome> {
    let listing = match calls.canon_in(form, new) {
        Ok(listing) => listing,
        Err(refusal) => return Ok(Outcome::Refused(explained(&refusal, new))),
    };
    let roots = check::signatures(new, &listing, view)?;
    beside.write(&listing)?;
    Ok(Outcome::New(roots, beside))
}

/// A refusal with the line that it points at, tabs written as `>`.
pub fn explained(refusal: &Refusal, text: &[u8]) -> String {
    const LONGEST: usize = 100;
    let line = String::from_utf8_lossy(refusal.pointed(text).unwrap_or_default());
    if line.is_empty() {
        return refusal.to_string();
    }
    let mut shown: String = line.chars().take(LONGEST).map(visible).collect();
    if line.chars().count() > LONGEST {
        shown.push_str("...");
    }
    format!("{refusal}\n    {}: {shown}", refusal.line)
}

fn visible(char: char) -> char {
    match char {
        '\t' => '>',
        char if char.is_control() => char::REPLACEMENT_CHARACTER,
        char => char,
    }
}

impl Outcome {
    /// Kept, redone and changed roots.
    pub fn counts(&self) -> (usize, usize, usize) {
        let Outcome::Rechecked(roots, _) = self else {
            return (0, 0, 0);
        };
        let redone = roots.iter().filter(|root| root.done == Done::Redone);
        let changed = roots.iter().filter(|root| root.change.is_some());
        let redone = redone.count();
        (roots.len() - redone, redone, changed.count())
    }

    /// The new listing, where one is to take its place.
    pub fn beside(&self) -> Option<&Beside> {
        match self {
            Outcome::Rechecked(_, beside) => beside.as_ref(),
            Outcome::New(_, beside) => Some(beside),
            Outcome::Refused(_) => None,
        }
    }
}
