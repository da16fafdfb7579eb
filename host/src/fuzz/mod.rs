//! Inputs of any kind, with outputs of any length and scratch that is soiled,
//! too short or longer than asked for. Each call must be answered as a second
//! reader of tables says, and leave output and scratch as promised.

mod inputs;
mod numbered;

use oracle::rng::Rng;
use oracle::{reader, Form};

use crate::calls::{refused, Canon, Outcome, OUTPUT};
use crate::report::came::{self, Came, Counts};
use crate::report::{watch, Faults, Tally};
use inputs::{KINDS, LONGEST};
use numbered::Numbered;

struct Fuzz {
    canon: Canon,
    out: Vec<u8>,
    rng: Rng,
    came: [Counts; KINDS.len()],
    numbered: Numbered,
    faults: Faults,
}

/// Calls with `count` inputs.
pub fn run(count: u64, seed: u64) -> Tally {
    watch::start();
    let mut fuzz = Fuzz {
        canon: Canon::new(Form::Plain),
        out: vec![0; LONGEST],
        rng: Rng::new(seed),
        came: Default::default(),
        numbered: Numbered::new(seed),
        faults: Faults::default(),
    };
    let byte = &mut fuzz.rng;
    fuzz.out.fill_with(|| byte.draw() as u8);
    for _ in 0..count {
        let kind = fuzz.kind();
        let text = (KINDS[kind].make)(&mut fuzz.rng);
        if let Err(fault) = fuzz.input(kind, &text) {
            fuzz.fail(&text, &fault);
        }
    }
    fuzz.print();
    Tally::of(count, fuzz.faults.count)
}

impl Fuzz {
    fn kind(&mut self) -> usize {
        let mut at = self.rng.below(100);
        for (i, kind) in KINDS.iter().enumerate() {
            if at < kind.share {
                return i;
            }
            at -= kind.share;
        }
        0
    }

    /// One input through one call, and through more where the table is
    /// accepted.
    fn input(&mut self, kind: usize, text: &[u8]) -> Result<(), String> {
        let lent = self.canon.scratch.lend(&mut self.rng);
        let room = self.room();
        let soiled = self.rng.chance(30, 100);
        let outcome = self.call(text, room, soiled)?;
        let written = &self.out[..outcome.unwrap_or(0)];
        let scratch = self.canon.scratch.lent;
        self.numbered.input(text, scratch, outcome, written)?;
        self.canon.scratch.lend_stated();
        *self.came[kind].entry(came(outcome)).or_default() += 1;
        let Some(outcome) = lent.judged(outcome)? else {
            return Ok(());
        };
        match (reader::read(text), outcome) {
            (Err(theirs), Err(ours)) if ours == theirs.into() => Ok(()),
            (Ok(_), Ok(length)) => self.accepted(text, length, soiled),
            (Ok(_), Err(ours)) if ours == refused(12, 0) => self.more(text, room),
            (theirs, ours) => {
                let theirs = theirs.map(|_| "accepted");
                Err(format!("ours {ours:?}, the second reader {theirs:?}"))
            }
        }
    }

    /// Clean scratch gives the same. Now and then the same table with an
    /// output of just its listing's length, and with one byte less.
    fn accepted(&mut self, text: &[u8], length: usize, soiled: bool) -> Result<(), String> {
        if soiled {
            self.again(text, length, false)?;
        }
        if !self.rng.chance(25, 100) {
            return Ok(());
        }
        self.again(text, length, true)?;
        match self.call(text, length - 1, true)? {
            Err(refusal) if refusal == refused(12, 0) => Ok(()),
            outcome => Err(format!("{outcome:?} with one byte less than {length}")),
        }
    }

    /// What was written is written again, where it just fits.
    fn again(&mut self, text: &[u8], length: usize, soiled: bool) -> Result<(), String> {
        let listing = self.out[..length].to_vec();
        match self.call(text, length, soiled)? {
            Ok(again) if again == length && self.out[..length] == listing[..] => Ok(()),
            outcome => Err(format!(
                "{length} bytes, and then with scratch soiled: {soiled} {outcome:?}"
            )),
        }
    }

    /// A table refused with 12 has a listing longer than the output.
    fn more(&mut self, text: &[u8], room: usize) -> Result<(), String> {
        match self.call(text, LONGEST, false)? {
            Ok(length) if length > room => Ok(()),
            Ok(length) => Err(format!("12 with {room} bytes for {length}")),
            Err(refusal) if refusal == refused(12, 0) => Ok(()),
            Err(refusal) => Err(format!("12 and then {refusal:?}")),
        }
    }

    fn call(&mut self, text: &[u8], room: usize, soiled: bool) -> Result<Outcome, String> {
        if soiled {
            let all = self.rng.chance(20, 100);
            self.canon.scratch.soil(&mut self.rng, all);
        }
        watch::begin(text);
        self.canon.canon(text, &mut self.out[..room])
    }

    fn room(&mut self) -> usize {
        match self.rng.below(10) {
            0..=5 => OUTPUT,
            6 => self.rng.below(LONGEST + 1),
            7 => self.rng.below(1_000),
            8 => self.rng.below(100),
            _ => self.rng.below(12),
        }
    }

    fn fail(&mut self, text: &[u8], fault: &str) {
        self.canon.scratch.wipe();
        self.numbered.canon.scratch.wipe();
        let name = format!("fuzz-{}", self.faults.count + 1);
        self.faults.take(&name, text, fault);
    }

    fn print(&self) {
        let kinds = KINDS.iter().map(|kind| kind.name).zip(&self.came);
        let mut all = Counts::new();
        for (&came, count) in self.came.iter().flatten() {
            *all.entry(came).or_default() += count;
        }
        came::print("input", kinds.chain([("all", &all)]));
        println!();
        let counts = &self.canon.scratch.counts;
        println!(
            "{} calls, {} of them with soiled scratch; {} inputs with a scratch that is short or longer than stated",
            counts.calls, counts.soiled, counts.odd
        );
        self.numbered.print();
    }
}

/// A refusal with 2 and line 0 is for the length of the text.
fn came(outcome: Outcome) -> Came {
    match outcome {
        Ok(_) => (0, ""),
        Err(refusal) if refusal == refused(2, 0) => (2, ", text length"),
        Err(refusal) => (refusal.number, ""),
    }
}
