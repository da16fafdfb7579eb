//! The stack is painted before a call, and looked at after it.

use std::hint::black_box;
use std::mem::MaybeUninit;

use crate::calls::Outcome;

/// So many words below the caller's frame are painted before a call.
const PAINTED: usize = (4 << 20) / WORD;
const PAINT: u64 = 0xc3c3_c3c3_c3c3_c3c3;
const WORD: usize = size_of::<u64>();

/// A call between painting the stack and looking how far the paint is gone:
/// the bytes that it took.
#[inline(never)]
pub fn measured(call: impl FnOnce() -> Outcome) -> (usize, Outcome) {
    let lowest = paint();
    let outcome = call();
    ((PAINTED - still_painted(lowest)) * WORD, outcome)
}

/// Paints what lies below the caller's frame and tells where it begins.
#[inline(never)]
fn paint() -> usize {
    let mut area = MaybeUninit::<[u64; PAINTED]>::uninit();
    let lowest = area.as_mut_ptr().cast::<u64>();
    for i in 0..PAINTED {
        // Inside the area.
        unsafe { lowest.add(i).write_volatile(PAINT) };
    }
    black_box(lowest as usize)
}

/// How many words from `lowest` on still have the paint.
#[inline(never)]
fn still_painted(lowest: usize) -> usize {
    let mut count = 0;
    while count < PAINTED {
        let at = (lowest + count * WORD) as *const u64;
        // On this thread's own stack, which stays mapped; nobody owns it now.
        if unsafe { at.read_volatile() } != PAINT {
            break;
        }
        count += 1;
    }
    count
}
