//! Tells when a call does not come back: a table that takes minutes would
//! otherwise only look like a slow run.

use std::sync::atomic::{AtomicU64, Ordering};
use std::sync::{Mutex, PoisonError};
use std::time::Duration;
use std::{process, thread};

use super::kept;

static CALLS: AtomicU64 = AtomicU64::new(0);
static TEXT: Mutex<Vec<u8>> = Mutex::new(Vec::new());

const LOOK: Duration = Duration::from_secs(10);
/// Looks without a new call after which the run is given up.
const PATIENCE: u32 = 30;

/// A call with this text begins.
pub fn begin(text: &[u8]) {
    let mut kept = TEXT.lock().unwrap_or_else(PoisonError::into_inner);
    kept.clear();
    kept.extend_from_slice(text);
    CALLS.fetch_add(1, Ordering::Relaxed);
}

pub fn start() {
    thread::spawn(|| {
        let (mut last, mut looks) = (0, 0);
        loop {
            thread::sleep(LOOK);
            let now = CALLS.load(Ordering::Relaxed);
            looks = if now == last { looks + 1 } else { 0 };
            last = now;
            if looks == PATIENCE {
                give_up();
            }
        }
    });
}

fn give_up() -> ! {
    let text = TEXT.lock().unwrap_or_else(PoisonError::into_inner);
    let file = kept::keep("slow", "table", &text);
    eprintln!("host: no answer after five minutes to {file}");
    process::exit(1)
}
