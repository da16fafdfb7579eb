//! The same tables through canon_numbered, beside the Rust's normalize_vars
//! and beside canon's own listing.

use oracle::{Form, RootAnswer, Table};

use super::verdict::{judge, Verdict};
use crate::calls::Canon;
use crate::lines;

pub struct Numbered {
    canon: Canon,
    roots: u64,
    /// The same bytes as the Rust's.
    same: u64,
    /// Of these: roots with a variable, with two or more, and with other lines
    /// than canon's.
    one: u64,
    two: u64,
    moved: u64,
}

impl Numbered {
    pub fn new() -> Self {
        Numbered {
            canon: Canon::new(Form::Numbered),
            roots: 0,
            same: 0,
            one: 0,
            two: 0,
            moved: 0,
        }
    }

    /// A table with canon's listing, and what each root of it came to.
    pub fn table(
        &mut self,
        table: &Table,
        text: &[u8],
        plain: &[u8],
        verdicts: &[Verdict],
    ) -> Result<(), String> {
        let theirs = oracle::answers_of(Form::Numbered, table);
        let theirs = theirs.map_err(|fault| format!("the oracle says {fault:?}"))?;
        let ours = self.listing(text, plain)?;
        self.roots += theirs.len() as u64;
        let blocks = lines::blocks(plain).into_iter().zip(lines::blocks(&ours));
        for ((blocks, root), &verdict) in blocks.zip(&theirs).zip(verdicts) {
            self.root(blocks, root, verdict)?;
        }
        Ok(())
    }

    /// Our listing, which is canon's but for the second line and the numbers.
    fn listing(&mut self, text: &[u8], plain: &[u8]) -> Result<Vec<u8>, String> {
        let expected = lines::numbered(plain);
        let mut out = vec![0x5a; expected.len()];
        match self.canon.canon(text, &mut out) {
            Ok(Ok(length)) if out[..length] == expected => Ok(out),
            Ok(Ok(_)) => Err("canon_numbered has other lines than canon".to_string()),
            Ok(Err(refusal)) => Err(format!("canon_numbered: {refusal:?}")),
            Err(broken) => {
                self.canon.scratch.wipe();
                Err(format!("canon_numbered: {broken}"))
            }
        }
    }

    /// A root's plain and numbered lines, beside the numbered answer; the plain
    /// ones came to `verdict`.
    fn root(
        &mut self,
        (plain, ours): (&[u8], &[u8]),
        theirs: &RootAnswer,
        verdict: Verdict,
    ) -> Result<(), String> {
        let numbered = judge(ours, theirs);
        if numbered.is_same() {
            let variables = lines::variables(ours);
            self.same += 1;
            self.one += u64::from(variables > 0);
            self.two += u64::from(variables > 1);
            self.moved += u64::from(plain != ours);
        }
        // Members in another order may have their variables in another order too.
        match numbered == verdict || numbered.is_sorted() && verdict.is_another_order() {
            true => Ok(()),
            false => {
                let theirs = lines::of_rust(theirs);
                let [ours, theirs] = [ours, &theirs].map(String::from_utf8_lossy);
                Err(format!("numbered, ours {ours}theirs {theirs}"))
            }
        }
    }

    pub fn print(&self) {
        println!(
            "{} of them once more by canon_numbered, beside canon's own lines: {} are byte for byte as by the Rust's normalize_vars",
            self.roots, self.same
        );
        println!(
            "{} of these have variables, {} two or more, and {} have other lines than by canon",
            self.one, self.two, self.moved
        );
    }
}
