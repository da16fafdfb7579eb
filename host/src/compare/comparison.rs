//! Tables through canon and through the Rust text, and what they came to.

use oracle::listing::{self, heading};
use oracle::{Answer, Form, RootAnswer, Table};

use super::counts::{self, Counts};
use super::numbered::Numbered;
use super::verdict::{judge, Verdict};
use crate::calls::{refused, Canon, OUTPUT};
use crate::input::join;
use crate::lines;
use crate::report::{watch, Faults};

/// More bytes than 4,096 nodes with 16,384 cells can take.
const ROOT: usize = 1 << 19;

pub struct Comparison {
    pub canon: Canon,
    pub out: Vec<u8>,
    by_kind: Vec<Counts>,
    /// Roots asked for one by one.
    single: u64,
    pub roots: u64,
    /// Roots with the bailed mark, and those that have it of the first pass
    /// alone.
    bailed: u64,
    first_alone: u64,
    numbered: Numbered,
    pub faults: Faults,
}

impl Comparison {
    pub fn new() -> Self {
        Comparison {
            canon: Canon::new(Form::Plain),
            out: vec![0x5a; OUTPUT],
            by_kind: vec![Counts::default(); join::kinds().count()],
            single: 0,
            roots: 0,
            bailed: 0,
            first_alone: 0,
            numbered: Numbered::new(),
            faults: Faults::default(),
        }
    }

    pub fn table(&mut self, kind: usize, name: &str, table: &Table, single: bool) {
        let text = table.to_text();
        let theirs = match oracle::answers_of(Form::Plain, table) {
            Ok(theirs) => theirs,
            Err(fault) => return self.fail(name, &text, &format!("the oracle says {fault:?}")),
        };
        self.by_kind[kind].tables += 1;
        self.roots += theirs.len() as u64;
        let ours = match self.listing(kind, &text, &theirs) {
            Ok(ours) => ours,
            Err(fault) => {
                self.by_kind[kind].add(Verdict::Differs, 1);
                return self.fail(name, &text, &fault);
            }
        };
        let blocks = lines::blocks(&ours);
        let mut verdicts = Vec::new();
        for (block, root) in blocks.iter().zip(&theirs) {
            let verdict = judge(block, root);
            verdicts.push(verdict);
            self.by_kind[kind].add(verdict, 1);
            self.count_bails(block, root);
            if verdict == Verdict::Differs {
                self.fail(name, &text, &difference(block, root));
            }
        }
        // Where the Rust has no answer, one call is held against the other.
        if single || too_long(&theirs) > 0 {
            self.singles(name, &text, &theirs, &blocks);
        }
        if let Err(fault) = self.numbered.table(table, &text, &ours, &verdicts) {
            self.fail(name, &text, &fault);
        }
    }

    /// Of a root that both have answered.
    fn count_bails(&mut self, block: &[u8], root: &RootAnswer) {
        if let (Answer::Shown(shown), None) = (&root.answer, lines::root_refusal(block)) {
            self.bailed += u64::from(shown.bailed);
            self.first_alone += u64::from(shown.first_alone);
        }
    }

    /// Our listing, which is one of these roots.
    fn listing(
        &mut self,
        kind: usize,
        text: &[u8],
        theirs: &[RootAnswer],
    ) -> Result<Vec<u8>, String> {
        watch::begin(text);
        let ours = self.whole(kind, text, theirs)?;
        let first = heading(Form::Plain, theirs.len());
        let of_roots = lines::blocks(&ours).len() == theirs.len();
        match of_roots && ours.starts_with(first.as_bytes()) {
            true => Ok(ours),
            false => Err("the listing is not one of these roots".to_string()),
        }
    }

    /// Our listing, also of a table that is refused with 12: that is asked
    /// again with a longer output.
    fn whole(
        &mut self,
        kind: usize,
        text: &[u8],
        theirs: &[RootAnswer],
    ) -> Result<Vec<u8>, String> {
        match self.canon.canon(text, &mut self.out)? {
            Ok(length) => return Ok(self.out[..length].to_vec()),
            Err(refusal) if refusal == refused(12, 0) => {}
            Err(refusal) => return Err(format!("an accepted table is {refusal:?}")),
        }
        self.by_kind[kind].long += 1;
        // Twice theirs, since one with the sorted mark may have more nodes.
        let room = 2 * listing::write(Form::Plain, theirs).len() + too_long(theirs) * ROOT;
        let mut out = vec![0x5a; room + OUTPUT];
        match self.canon.canon(text, &mut out)? {
            Ok(length) if length > OUTPUT => Ok(out[..length].to_vec()),
            Ok(length) => Err(format!("12 for a listing of {length} bytes")),
            Err(refusal) => Err(format!("{refusal:?} with {} bytes of output", out.len())),
        }
    }

    /// Each root by a call of its own gives its lines of the listing.
    fn singles(&mut self, name: &str, text: &[u8], theirs: &[RootAnswer], blocks: &[&[u8]]) {
        for (block, root) in blocks.iter().zip(theirs) {
            let sign = u32::from(!root.root.positive);
            let mut out = vec![0x5a; block.len()];
            let result = self.canon.canon_root(text, root.root.id, sign, &mut out);
            let fault = match result {
                Ok(Ok(length)) if &out[..length] == *block => None,
                Ok(outcome) => Some(format!("canon_root gives {outcome:?}")),
                Err(broken) => Some(format!("canon_root: {broken}")),
            };
            self.single += 1;
            if let Some(fault) = fault {
                self.fail(name, text, &fault);
            }
        }
    }

    fn fail(&mut self, name: &str, text: &[u8], fault: &str) {
        self.canon.scratch.wipe();
        self.faults.take(name, text, fault);
    }

    pub fn print(&self) {
        counts::print(&self.by_kind);
        println!();
        println!(
            "{} roots compared; {} of them once more by canon_root",
            self.roots, self.single
        );
        println!(
            "{} of them have the bailed mark, {} by the first pass alone",
            self.bailed, self.first_alone
        );
        self.numbered.print();
    }
}

/// How many roots nobody waits for the Rust's answer to.
fn too_long(theirs: &[RootAnswer]) -> usize {
    let roots = theirs.iter();
    roots.filter(|root| root.answer == Answer::TooLong).count()
}

fn difference(block: &[u8], root: &RootAnswer) -> String {
    let theirs = lines::of_rust(root);
    let [ours, theirs] = [block, &theirs].map(String::from_utf8_lossy);
    format!("ours {ours}theirs {theirs}{:?}", root.measures)
}
