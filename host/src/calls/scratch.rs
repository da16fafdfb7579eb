//! The slices that are lent to a call besides its output, and what every call
//! promises of them and of the output.

use std::ops::BitOr;

use oracle::rng::Rng;

use super::outcome::{refused, Outcome, Refused};

/// A lent slice: its name and its stated length.
pub type Slice = (&'static str, usize);

/// How much longer than stated a slice may be lent here.
const SPARE: usize = 64;

/// What a call gave, or which of its promises it broke.
pub type Checked = Result<Outcome, String>;

/// A draft of bytes and several slices of numbers.
pub struct Scratch<const N: usize> {
    pub stated: [Slice; N],
    draft: Vec<u8>,
    words: Vec<Vec<u32>>,
    /// The lengths that are lent.
    pub lent: [usize; N],
    /// The output as it was before a call.
    before: Vec<u8>,
    pub counts: Counts,
}

#[derive(Default)]
pub struct Counts {
    /// Calls that were looked at.
    pub calls: u64,
    /// How often the scratch was soiled.
    pub soiled: u64,
    /// How often slices were lent short or longer than stated.
    pub odd: u64,
}

/// How much of a slice there is to lend.
fn held(slice: Slice) -> usize {
    #[cfg(before)]
    let stated = slice.1.max(super::before::LONGEST);
    #[cfg(not(before))]
    let stated = slice.1;
    stated + SPARE
}

impl<const N: usize> Scratch<N> {
    pub fn new(stated: [Slice; N]) -> Self {
        let words = stated[1..].iter();
        Scratch {
            stated,
            draft: vec![0; held(stated[0])],
            words: words.map(|&slice| vec![0; held(slice)]).collect(),
            lent: stated.map(|slice| slice.1),
            before: Vec::new(),
            counts: Counts::default(),
        }
    }

    /// The slices as they are lent: the draft, and the others in their order.
    pub fn slices<const M: usize>(&mut self) -> (&mut [u8], [&mut [u32]; M]) {
        self.slices_of(self.lent)
    }

    /// The same slices, of these lengths.
    pub fn slices_of<const M: usize>(
        &mut self,
        lengths: [usize; N],
    ) -> (&mut [u8], [&mut [u32]; M]) {
        let draft = &mut self.draft[..lengths[0]];
        let words = self.words.iter_mut().zip(lengths[1..].to_vec());
        let mut words = words.map(|(cells, length)| &mut cells[..length]);
        let words = std::array::from_fn(|_| words.next().expect("a call asks for its own slices"));
        (draft, words)
    }

    /// Makes a call and looks at every cell after it; `may` tells the refusals
    /// that the call may give.
    pub fn checked(
        &mut self,
        out: &mut [u8],
        call: impl FnOnce(&mut Self, &mut [u8]) -> Outcome,
        may: impl FnOnce(Refused) -> bool,
    ) -> Checked {
        // What an earlier call wrote is no answer of this one.
        for byte in out.iter_mut() {
            *byte = !*byte;
        }
        self.counts.calls += 1;
        self.before.clear();
        self.before.extend_from_slice(out);
        let outcome = call(self, out);
        self.check_scratch()?;
        self.check_output(outcome, out)?;
        match outcome {
            Err(refusal) if !may(refusal) => Err(format!("{refusal:?}")),
            _ => Ok(outcome),
        }
    }

    /// Every scratch cell is zero, and so are those that were not lent.
    fn check_scratch(&self) -> Result<(), String> {
        if !all_zero(&self.draft) {
            return Err("the draft is not zero after the call".to_string());
        }
        match self.words.iter().position(|cells| !all_zero(cells)) {
            Some(i) => Err(format!(
                "{} is not zero after the call",
                self.stated[i + 1].0
            )),
            None => Ok(()),
        }
    }

    /// The output is as found, but for the bytes written.
    fn check_output(&self, outcome: Outcome, out: &[u8]) -> Result<(), String> {
        let written = match outcome {
            Ok(written) if written > out.len() => {
                return Err(format!("{written} bytes written into {}", out.len()))
            }
            Ok(written) => written,
            Err(_) => 0,
        };
        if out[written..] != self.before[written..] {
            return Err(format!("the output has changed behind byte {written}"));
        }
        Ok(())
    }

    /// Puts random numbers into the scratch: a few cells, or all of them.
    pub fn soil(&mut self, rng: &mut Rng, all: bool) {
        self.counts.soiled += 1;
        // Numbers of its own: what is drawn after it is the same whatever lengths
        // are stated.
        let rng = &mut Rng::new(rng.draw());
        let lent = self.lent;
        soil(rng, all, &mut self.draft[..lent[0]], |n| n as u8);
        for (cells, length) in self.words.iter_mut().zip(&lent[1..]) {
            soil(rng, all, &mut cells[..*length], |n| n as u32);
        }
    }

    /// Wipes what a call that broke its promise may have left, and lends what
    /// is stated again.
    pub fn wipe(&mut self) {
        self.draft.fill(0);
        for cells in &mut self.words {
            cells.fill(0);
        }
        self.lend_stated();
    }

    pub fn lend_stated(&mut self) {
        self.lent = self.stated.map(|slice| slice.1);
    }

    /// Now and then a slice is lent one cell short, or far shorter, or all of
    /// them are longer than asked for.
    pub fn lend(&mut self, rng: &mut Rng) -> Lent {
        let lent = self.drawn(rng);
        self.counts.odd += u64::from(lent != Lent::Stated);
        lent
    }

    fn drawn(&mut self, rng: &mut Rng) -> Lent {
        match rng.below(100) {
            0..=2 => {
                let i = rng.below(N);
                let (name, length) = self.stated[i];
                let less = match rng.chance(75, 100) {
                    true => 1,
                    false => 1 + rng.below(length),
                };
                self.lent[i] = length - less;
                Lent::Short(name)
            }
            3..=7 => {
                for length in &mut self.lent {
                    *length += rng.below(SPARE + 1);
                }
                Lent::Longer
            }
            _ => Lent::Stated,
        }
    }
}

/// How the slices are lent: one of them short, all of them longer, or as
/// stated.
#[derive(Clone, Copy, PartialEq, Eq)]
pub enum Lent {
    Short(&'static str),
    Longer,
    Stated,
}

impl Lent {
    /// The outcome of a call with slices lent so; none if one of them was
    /// short, and the call refused for that.
    pub fn judged(self, outcome: Outcome) -> Result<Option<Outcome>, String> {
        match self {
            Lent::Short(_) if outcome == Err(refused(20, 0)) => Ok(None),
            Lent::Short(slice) => Err(format!("{outcome:?} with a short {slice}")),
            _ => Ok(Some(outcome)),
        }
    }
}

fn soil<T>(rng: &mut Rng, all: bool, cells: &mut [T], made: fn(u64) -> T) {
    if all {
        for cell in cells.iter_mut() {
            *cell = made(rng.draw());
        }
        return;
    }
    // A scratch of no cell at all has none to soil.
    let some = if cells.is_empty() { 0 } else { 20 };
    for _ in 0..some {
        let at = rng.below(cells.len());
        cells[at] = made(rng.draw());
    }
}

/// Blocks are folded without a test inside, which the compiler makes fast.
fn all_zero<T: Copy + Default + PartialEq + BitOr<Output = T>>(cells: &[T]) -> bool {
    let zero = T::default();
    cells
        .chunks(1024)
        .all(|block| block.iter().fold(zero, |sum, &cell| sum | cell) == zero)
}
