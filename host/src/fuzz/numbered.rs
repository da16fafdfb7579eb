//! The same inputs through canon_numbered: it refuses what canon refuses, with
//! the same number and line, and writes what canon writes but for the numbers.

use oracle::rng::Rng;
use oracle::Form;

use super::inputs::LONGEST;
use crate::calls::{refused, Canon, Checked, Outcome, Refused};
use crate::lines;
use crate::report::watch;

pub struct Numbered {
    pub canon: Canon,
    out: Vec<u8>,
    rng: Rng,
    written: u64,
    refused: u64,
}

impl Numbered {
    /// It draws numbers of its own, so that canon's inputs stay as they are.
    pub fn new(seed: u64) -> Self {
        Numbered {
            canon: Canon::new(Form::Numbered),
            // It may be longer than canon's by a line.
            out: vec![0; LONGEST + "numbered\n".len()],
            rng: Rng::new(seed),
            written: 0,
            refused: 0,
        }
    }

    /// An input with what canon came to and has written, in scratch of these
    /// lengths.
    pub fn input(
        &mut self,
        text: &[u8],
        lent: [usize; 4],
        plain: Outcome,
        written: &[u8],
    ) -> Result<(), String> {
        self.canon.scratch.lent = lent;
        let result = match plain {
            Ok(_) => self.writes(text, &lines::numbered(written)),
            // With shorter numbers it may fit, though canon's does not.
            Err(refusal) if refusal == refused(12, 0) => self.refuses(text, 0, refusal),
            Err(refusal) => {
                let room = self.rng.pick(&[0, 100, LONGEST]);
                self.refuses(text, room, refusal)
            }
        };
        self.canon.scratch.lend_stated();
        result.map_err(|fault| format!("canon_numbered: {fault}"))
    }

    fn refuses(&mut self, text: &[u8], room: usize, refusal: Refused) -> Result<(), String> {
        self.refused += 1;
        match self.call(text, room)? {
            Err(ours) if ours == refusal => Ok(()),
            outcome => Err(format!("{outcome:?}, canon {refusal:?}")),
        }
    }

    /// The listing is written where it just fits, and one byte less is 12.
    fn writes(&mut self, text: &[u8], listing: &[u8]) -> Result<(), String> {
        self.written += 1;
        let outcome = self.call(text, listing.len())?;
        if outcome != Ok(listing.len()) || !self.out.starts_with(listing) {
            return Err(format!("{outcome:?}, expected {} bytes", listing.len()));
        }
        match self.call(text, listing.len() - 1)? {
            Err(refusal) if refusal == refused(12, 0) => Ok(()),
            outcome => Err(format!("{outcome:?} with one byte less")),
        }
    }

    /// Three calls in ten find random numbers in the scratch.
    fn call(&mut self, text: &[u8], room: usize) -> Checked {
        if self.rng.chance(30, 100) {
            let all = self.rng.chance(20, 100);
            self.canon.scratch.soil(&mut self.rng, all);
        }
        watch::begin(text);
        self.canon.canon(text, &mut self.out[..room])
    }

    pub fn print(&self) {
        let counts = &self.canon.scratch.counts;
        println!(
            "{} inputs once more by canon_numbered: {} written and {} refused as by canon; {} calls, {} of them with soiled scratch",
            self.written + self.refused,
            self.written,
            self.refused,
            counts.calls,
            counts.soiled
        );
    }
}
