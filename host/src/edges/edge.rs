//! An edge of canon in either form: a call, and what is expected of it.

use oracle::Form;

use crate::calls::OUTPUT;
use crate::input::draft::tabs;
use crate::lines;

/// Enough for every listing here.
pub const ROOM: usize = 1 << 20;

#[derive(Clone)]
pub enum Expect {
    /// The call is refused with number and line.
    Refused(u32, u32),
    /// The whole listing.
    Listing(Vec<u8>),
    /// The same, where the Rust takes too long to be asked, or was asked.
    Unasked(Vec<u8>),
    /// The first line of each root.
    Roots(Vec<String>),
}

pub struct Edge {
    pub name: String,
    pub text: Vec<u8>,
    pub room: usize,
    pub form: Form,
    pub expect: Expect,
}

impl Edge {
    /// The same of canon_numbered; none of 12, where lengths are told apart.
    pub fn numbered(&self) -> Option<Edge> {
        let mut room = self.room;
        let mut of = |plain: &[u8]| {
            let listing = lines::numbered(plain);
            room = room + listing.len() - plain.len();
            listing
        };
        let expect = match &self.expect {
            Expect::Refused(12, _) => return None,
            Expect::Listing(plain) => Expect::Listing(of(plain)),
            Expect::Unasked(plain) => Expect::Unasked(of(plain)),
            other => other.clone(),
        };
        Some(Edge {
            name: format!("{}, numbered", self.name),
            text: self.text.clone(),
            room,
            form: Form::Numbered,
            expect,
        })
    }
}

#[derive(Default)]
pub struct Edges {
    pub all: Vec<Edge>,
}

impl Edges {
    /// An edge of canon, and the same of canon_numbered.
    pub fn add(&mut self, name: &str, text: Vec<u8>, room: usize, expect: Expect) {
        let plain = Edge {
            name: name.to_string(),
            text,
            room,
            form: Form::Plain,
            expect,
        };
        self.all.extend(plain.numbered());
        self.all.push(plain);
    }

    /// A listing in a form, where it just fits; one byte less is 12.
    pub fn fits(&mut self, form: Form, name: &str, text: &[u8], listing: &[u8]) {
        let length = listing.len();
        let mut edge = |what: &str, room, expect| {
            let (name, text) = (format!("{name}, {what}"), text.to_vec());
            self.all.push(Edge {
                name,
                text,
                room,
                form,
                expect,
            });
        };
        for (room, what) in [(length, "exact"), (length + 1, "one more")] {
            edge(what, room, Expect::Listing(listing.to_vec()));
        }
        for (room, what) in [(length - 1, "one short"), (0, "none"), (1, "one byte")] {
            edge(what, room, Expect::Refused(12, 0));
        }
    }

    /// Accepted, and there are no roots.
    pub fn accepted(&mut self, name: &str, text: Vec<u8>) {
        self.add(name, text, OUTPUT, Expect::Listing(tabs("answers>0\n")));
    }

    pub fn refused(&mut self, name: &str, text: Vec<u8>, number: u32, line: u32) {
        self.add(name, text, OUTPUT, Expect::Refused(number, line));
    }

    /// One root, by its first line.
    pub fn root(&mut self, name: &str, text: Vec<u8>, head: &str) {
        let heads = vec![head.replace('>', "\t")];
        self.add(name, text, ROOM, Expect::Roots(heads));
    }

    /// A table whose last line, as it stands, is at fault.
    pub fn last(&mut self, name: &str, text: &str, number: u32) {
        let line = text.split_inclusive('\n').count() as u32;
        self.refused(name, tabs(text), number, line);
    }
}
