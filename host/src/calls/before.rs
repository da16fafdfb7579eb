//! The calls of the earlier library: the crate's own wrapper, in which build.rs
//! has changed the names of the exports.
#![allow(dead_code)] // canon_root is not timed

use std::sync::OnceLock;

use pekonusit::raw;

include!(concat!(env!("OUT_DIR"), "/before.rs"));

impl From<Outcome> for raw::Outcome {
    fn from(outcome: Outcome) -> Self {
        match outcome {
            Outcome::Written(bytes) => raw::Outcome::Written(bytes),
            Outcome::Refused { number, line } => raw::Outcome::Refused { number, line },
        }
    }
}

/// No slice of an earlier library is longer than this.
pub const LONGEST: usize = 131_072;

/// The lengths that its canon asks for, the draft's first.
pub fn asked_by_canon() -> [usize; 4] {
    static LENGTHS: OnceLock<[usize; 4]> = OnceLock::new();
    *LENGTHS.get_or_init(|| {
        asked(|draft, [table, arena, work]| {
            canon(Form::Plain, &[], &mut [], draft, table, arena, work)
        })
    })
}

/// The lengths that its recheck asks for.
pub fn asked_by_recheck() -> [usize; 5] {
    static LENGTHS: OnceLock<[usize; 5]> = OnceLock::new();
    *LENGTHS.get_or_init(|| {
        asked(|draft, [older, table, arena, work]| {
            let (form, none) = (Form::Plain, &[]);
            recheck(
                form,
                none,
                none,
                none,
                &mut [],
                draft,
                older,
                table,
                arena,
                work,
            )
        })
    })
}

/// Of each slice the shortest that is not refused with 20: a call wipes all that
/// it is lent, and a longer one would cost it time.
fn asked<const N: usize, const M: usize>(
    call: impl Fn(&mut [u8], [&mut [u32]; M]) -> Outcome,
) -> [usize; N] {
    let short = Outcome::Refused {
        number: 20,
        line: 0,
    };
    let mut draft = vec![0; LONGEST];
    let mut words: [Vec<u32>; M] = std::array::from_fn(|_| vec![0; LONGEST]);
    let lengths: Vec<usize> = (0..LONGEST).collect();
    std::array::from_fn(|slice| {
        lengths.partition_point(|&length| {
            let mut lent = [LONGEST; N];
            lent[slice] = length;
            let mut lengths = lent[1..].iter();
            let words = words.each_mut().map(|cells| {
                let length = lengths.next().expect("a length for each slice");
                &mut cells[..*length]
            });
            call(&mut draft[..lent[0]], words) == short
        })
    })
}
