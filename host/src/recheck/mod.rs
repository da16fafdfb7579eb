//! recheck and recheck_numbered beside what they must answer: pairs of tables
//! that differ in some entries, with the listing of the old one, with one that
//! was altered, and with one that is damaged; and damaged tables.

mod counts;
mod damage;
mod mixed;
pub mod model;
mod old;

use oracle::rng::Rng;
use oracle::{gen, Form, Table};

use crate::calls::{refused, Canon, Input, Outcome, Recheck, Refused, OUTPUT};
use crate::input::edits;
use crate::input::join::{self, JOINED};
use crate::lines;
use crate::report::{came, watch, Faults, Tally};
use counts::Counts;
use damage::KINDS;
use mixed::Mixed;
use model::Rechecked;

/// Damaged inputs for each pair.
const DAMAGED: u64 = 4;
/// One pair in so many is of tables put together from several.
const TOGETHER: u64 = 4;
/// Room for every listing here.
const ROOM: usize = 8 << 20;

/// Of one form.
struct Rechecking {
    canon: Canon,
    recheck: Recheck,
    rng: Rng,
    out: Vec<u8>,
    /// The last table that canon was asked for, and its listing.
    last: (Vec<u8>, Vec<u8>),
    by_kind: Vec<Counts>,
    came: [came::Counts; KINDS.len()],
    faults: Faults,
}

/// Rechecks `count` pairs and more damaged inputs.
pub fn run(count: u64, seed: u64) -> Tally {
    watch::start();
    let mut forms = Form::ALL.map(|form| Rechecking::new(form, seed));
    let mut mixed = Mixed::new();
    for index in 0..count {
        let (kind, old) = table(seed, index);
        let new = edits::of_table(&mut forms[0].rng, &old);
        let pair = [old, new];
        if let [Some(plain), Some(numbered)] = forms.each_mut().map(|all| all.tables(kind, &pair)) {
            mixed.pair([plain, numbered]);
        }
    }
    let [plain, numbered] = &forms;
    plain.print();
    numbered.print_sums();
    mixed.print();
    let faults = plain.faults.count + numbered.faults.count + mixed.faults.count;
    let inputs = 2 * count * (1 + DAMAGED) + mixed.refused.iter().sum::<u64>();
    Tally::of(inputs, faults)
}

/// The `index`th table, with its kind.
fn table(seed: u64, index: u64) -> (usize, Table) {
    let joined = match index % TOGETHER {
        0 => join::several(seed, index),
        _ => None,
    };
    match joined {
        Some(table) => (JOINED, table),
        None => gen::mixed(seed, index),
    }
}

impl Rechecking {
    fn new(form: Form, seed: u64) -> Self {
        Rechecking {
            canon: Canon::new(form),
            recheck: Recheck::new(form),
            rng: Rng::new(seed),
            out: vec![0x5a; ROOM],
            last: Default::default(),
            by_kind: vec![Counts::default(); join::kinds().count()],
            came: Default::default(),
            faults: Faults::default(),
        }
    }

    /// A pair with its listing as it is, with an altered one, and damaged. What
    /// it was as it is; none where it has no listing.
    fn tables(&mut self, kind: usize, pair: &[Table; 2]) -> Option<Input> {
        let [old, new] = pair.each_ref().map(Table::to_text);
        let listing = self.listing(&old);
        let mut input = Input {
            old,
            new,
            listing: Vec::new(),
        };
        self.by_kind[kind].pairs += 1;
        match listing {
            Ok(listing) => input.listing = listing,
            Err(fault) => {
                self.fail(Some(kind), &input, &fault);
                return None;
            }
        }
        if let Err(fault) = self.pair(kind, &input) {
            self.fail(Some(kind), &input, &fault);
        }
        for i in 0..DAMAGED {
            let mut input = input.clone();
            // Three in four are of the listing.
            let kind = match i % 4 {
                3 => self.rng.below(KINDS.len()),
                i => i as usize,
            };
            (KINDS[kind].make)(&mut self.rng, &mut input, pair);
            if let Err(fault) = self.damaged(kind, &input) {
                self.fail(None, &input, &fault);
            }
        }
        Some(input)
    }

    /// canon's listing of a table.
    fn listing(&mut self, text: &[u8]) -> Result<Vec<u8>, String> {
        if self.last.0 != text {
            self.last = (text.to_vec(), self.canon(text)?);
        }
        Ok(self.last.1.clone())
    }

    fn canon(&mut self, text: &[u8]) -> Result<Vec<u8>, String> {
        watch::begin(text);
        for room in [OUTPUT, ROOM] {
            match self.canon.canon(text, &mut self.out[..room])? {
                Ok(length) => return Ok(self.out[..length].to_vec()),
                Err(refusal) if refusal == refused(12, 0) => {}
                Err(refusal) => return Err(format!("canon: {refusal:?}")),
            }
        }
        Err("canon: no room for the listing".to_string())
    }

    /// What recheck must answer.
    fn model(&mut self, input: &Input) -> Result<Result<Rechecked, Refused>, String> {
        model::answer(self.canon.form, input, || self.listing(&input.new))
    }

    fn pair(&mut self, kind: usize, input: &Input) -> Result<(), String> {
        let expected = match self.model(input)? {
            Ok(expected) => expected,
            Err(refusal) => {
                self.by_kind[kind].long += 1;
                return match refusal == refused(11, 0) && input.listing.len() > OUTPUT {
                    true => self.is_refused(input, refusal),
                    false => Err(format!("the model says {refusal:?}")),
                };
            }
        };
        // A kept root's lines are those that the new table gives too.
        let mut afresh = model::first_line(&expected.redone);
        afresh.extend(self.listing(&input.new)?);
        if afresh != expected.text {
            return Err("a kept root is another in the new table".to_string());
        }
        self.is_written(input, &expected.text)?;
        let counts = &mut self.by_kind[kind];
        counts.twelve += u64::from(expected.text.len() > OUTPUT);
        let redone = expected.redone.iter().filter(|&&redone| redone).count() as u64;
        counts.redone += redone;
        counts.kept += expected.redone.len() as u64 - redone;
        self.altered(kind, input)
    }

    /// Kept lines are copied as they stand, redone ones are as afresh.
    fn altered(&mut self, kind: usize, input: &Input) -> Result<(), String> {
        let old = &input.listing;
        let input = Input {
            listing: edits::of_listing(&mut self.rng, old),
            ..input.clone()
        };
        // Longer numbers may make it too long.
        if input.listing.len() > OUTPUT {
            return self.is_refused(&input, refused(11, 0));
        }
        let expected = self.model(&input)?;
        let expected =
            expected.map_err(|refusal| format!("altered, the model says {refusal:?}"))?;
        self.is_written(&input, &expected.text)?;
        let counts = &mut self.by_kind[kind];
        let (old, new) = (lines::blocks(old), lines::blocks(&input.listing));
        for (i, redone) in expected.redone.into_iter().enumerate() {
            match (old[i] == new[i], redone) {
                (true, _) => {}
                (false, true) => counts.redone_altered += 1,
                (false, false) => counts.kept_altered += 1,
            }
        }
        Ok(())
    }

    fn damaged(&mut self, kind: usize, input: &Input) -> Result<(), String> {
        let expected = self.model(input)?;
        let number = match expected {
            Ok(expected) => {
                self.is_written(input, &expected.text)?;
                0
            }
            Err(refusal) => {
                self.is_refused(input, refusal)?;
                refusal.number
            }
        };
        *self.came[kind].entry((number, "")).or_default() += 1;
        Ok(())
    }

    fn is_refused(&mut self, input: &Input, refusal: Refused) -> Result<(), String> {
        let room = self.rng.pick(&[0, 1, 100, OUTPUT]);
        same(self.call(input, room)?, Err(refusal)).map(drop)
    }

    /// The text is written where it fits, also if the output is of just its
    /// length, and one byte less is 12.
    fn is_written(&mut self, input: &Input, text: &[u8]) -> Result<(), String> {
        let mut rooms = vec![OUTPUT.max(text.len())];
        if self.rng.chance(1, 4) {
            rooms.push(text.len());
        }
        for room in rooms {
            if same(self.call(input, room)?, Ok(text.len()))? && self.out[..text.len()] != *text {
                let ours = &self.out[..text.len().min(400)];
                return Err(format!("ours {}", String::from_utf8_lossy(ours)));
            }
        }
        let short = match text.len() > OUTPUT {
            true => OUTPUT,
            false if self.rng.chance(1, 4) => text.len() - 1,
            false => return Ok(()),
        };
        same(self.call(input, short)?, Err(refused(12, 0))).map(drop)
    }

    /// A call, now and then with soiled scratch, or with scratch that is short
    /// or longer than stated. None if it was short, and refused for that.
    fn call(&mut self, input: &Input, room: usize) -> Result<Option<Outcome>, String> {
        watch::begin(&input.text());
        let scratch = &mut self.recheck.scratch;
        let lent = scratch.lend(&mut self.rng);
        if self.rng.chance(3, 10) {
            let all = self.rng.chance(1, 5);
            scratch.soil(&mut self.rng, all);
        }
        let outcome = self.recheck.recheck(input, &mut self.out[..room])?;
        self.recheck.scratch.lend_stated();
        lent.judged(outcome)
    }

    fn fail(&mut self, kind: Option<usize>, input: &Input, fault: &str) {
        if let Some(kind) = kind {
            self.by_kind[kind].failed += 1;
        }
        self.canon.scratch.wipe();
        self.recheck.scratch.wipe();
        let name = format!("recheck-{}", self.faults.count + 1);
        self.faults.take(&name, &input.text(), fault);
    }

    fn print(&self) {
        counts::print(&self.by_kind);
        println!();
        let kinds = KINDS.iter().map(|kind| kind.name);
        came::print("damaged", kinds.zip(&self.came));
        println!();
        let counts = &self.recheck.scratch.counts;
        println!(
            "{} calls, {} of them with soiled scratch and {} with scratch that is short or longer than stated",
            counts.calls, counts.soiled, counts.odd
        );
    }

    fn print_sums(&self) {
        let [pairs, long, twelve, kept, redone, ..] = counts::sums(&self.by_kind);
        println!(
            "{pairs} pairs once more by recheck_numbered, beside canon_numbered: {kept} roots kept and {redone} redone; {long} of the pairs are 11 at line 0 and {twelve} are 12"
        );
        let came = self.came.iter().flatten();
        let inputs: u64 = came.clone().map(|(_, count)| count).sum();
        let written: u64 = came.filter(|(came, _)| came.0 == 0).map(|(_, n)| n).sum();
        let calls = self.recheck.scratch.counts.calls;
        println!("{inputs} damaged inputs of it, {written} of them written; {calls} calls in all");
    }
}

/// Whether there was an outcome, which then is the one expected.
fn same(ours: Option<Outcome>, expected: Outcome) -> Result<bool, String> {
    match ours {
        Some(ours) if ours != expected => Err(format!("{ours:?}, expected {expected:?}")),
        _ => Ok(ours.is_some()),
    }
}
