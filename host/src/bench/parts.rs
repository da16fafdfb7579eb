//! Tables of a size, put together from small ones.

use oracle::{gen, listing, reader, Answer, Form, Table};

use crate::calls::OUTPUT;
use crate::input::join::behind;
use crate::limits::{within, NEAR_CELLS, NEAR_NODES};

/// Seeds that are tried for parts that fit.
const SEEDS: u64 = 400;

/// Tables of a profile, one after another in one table of about `size`
/// entries; none if no two thirds of it can be filled.
pub fn joined(profile: usize, size: usize, part: u64, single: bool) -> Option<Table> {
    let mut whole = Table {
        budget: u32::MAX,
        ..Table::default()
    };
    for seed in 0..SEEDS {
        let next = gen::table(profile, 1_000_000 * (part + 1) + seed);
        let n = whole.entries.len() + next.entries.len();
        if n > size || !answered(&next) {
            continue;
        }
        let longer = behind(&whole, &next, 2);
        if reader::read(&longer.to_text()).is_ok() {
            whole = longer;
        }
        if whole.entries.len() * 20 >= size * 19 {
            break;
        }
    }
    if whole.entries.len() * 3 < size * 2 {
        return None;
    }
    let kept = whole.roots.len() - 1;
    if single {
        whole.roots.drain(..kept);
    }
    while listing::write(Form::Plain, &oracle::answers_of(Form::Plain, &whole).ok()?).len() > OUTPUT
    {
        whole.roots.pop()?;
    }
    Some(whole)
}

/// All its roots are answered, here too.
fn answered(table: &Table) -> bool {
    oracle::answers_of(Form::Plain, table).is_ok_and(|roots| {
        roots.iter().all(|root| {
            matches!(root.answer, Answer::Shown(_)) && within(root.measures, NEAR_NODES, NEAR_CELLS)
        })
    })
}
