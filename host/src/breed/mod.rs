//! Slow tables, bred: of some tables each is changed, and a change that makes it
//! slower is kept, by processor time. The five slowest are kept under
//! host/target/bred.

mod changes;
mod subject;

use std::time::Duration;

use oracle::gen::{self, slow::SHAPES};
use oracle::rng::Rng;
use oracle::{reader, Table};

use crate::bench::clock::{median, told};
use crate::bench::libraries::{self, Each};
use crate::calls::Library;
use crate::report::kept::{keep, kept};
use crate::report::rows::{print_heads, print_row};
use crate::report::Tally;
use subject::Call;

const ROOTS: usize = 64;
/// So many are told of.
const TOLD: usize = 5;
/// In medians of so many runs.
const RUNS: usize = 3;
/// Where they are kept, under host/target.
const FOLDER: &str = "bred";

/// A table that was timed.
struct Bred {
    /// The profile or the shape that it comes from.
    origin: &'static str,
    table: Table,
    time: Duration,
}

pub fn run(call: &str, rounds: u64, seed: u64) -> Option<Tally> {
    let mut call = Call::named(call)?;
    let mut rng = Rng::new(seed);
    let mut kept: Vec<Bred> = first(&mut rng)
        .into_iter()
        .map(|(origin, table)| Bred {
            time: call.time(&table),
            origin,
            table,
        })
        .collect();
    for _ in 0..rounds {
        let [at, other] = [(); 2].map(|()| rng.below(kept.len()));
        let table = changed(&mut rng, &kept[at].table, &kept[other].table);
        // The slower of two runs may be the machine's; both have to be slower.
        let slower = |time: &Duration| *time > kept[at].time;
        let once = Some(call.time(&table)).filter(slower);
        if let Some(time) = once.map(|once| once.min(call.time(&table))) {
            if slower(&time) {
                (kept[at].table, kept[at].time) = (table, time);
            }
        }
    }
    kept.sort_by_key(|bred| std::cmp::Reverse(bred.time));
    tell(&mut call, &kept);
    Some(Tally::default())
}

/// A table of each profile and each slow shape, with 64 roots.
fn first(rng: &mut Rng) -> Vec<(&'static str, Table)> {
    let profiles = gen::PROFILES.iter().enumerate();
    let mut tables: Vec<(&str, Table)> = profiles
        .map(|(number, profile)| (profile.name, gen::table(number, rng.draw())))
        .collect();
    let shapes = SHAPES.iter();
    tables.extend(shapes.map(|shape| (shape.name, gen::slow_table(shape))));
    for (_, table) in &mut tables {
        let roots = table.roots.clone();
        while table.roots.len() < ROOTS && !roots.is_empty() {
            table.roots.push(rng.pick(&roots));
        }
    }
    tables
}

/// A table with up to three changes. It is accepted, if the one before is.
fn changed(rng: &mut Rng, table: &Table, other: &Table) -> Table {
    let mut table = table.clone();
    for _ in 0..rng.pick(&[1, 1, 2, 3]) {
        let mut next = table.clone();
        changes::change(rng, &mut next, other);
        // A change may pass a ceiling.
        if reader::read(&next.to_text()).is_ok() {
            table = next;
        }
    }
    table
}

fn tell(call: &mut Call, kept: &[Bred]) {
    heads("from");
    for (place, bred) in kept.iter().take(TOLD).enumerate() {
        keep(FOLDER, &file_name(call, place), &bred.table.to_text());
        row(call, bred.origin, &bred.table);
    }
}

/// The tables that were kept, timed once more.
pub fn again(call: &str) -> Option<Tally> {
    let mut call = Call::named(call)?;
    heads("kept as");
    for place in 0..TOLD {
        let name = file_name(&call, place);
        let table = kept(FOLDER, &name).and_then(|text| reader::read(&text).ok())?;
        row(&mut call, &name, &table);
    }
    Some(Tally::default())
}

fn file_name(call: &Call, place: usize) -> String {
    format!("{}-{place}", call.name())
}

fn heads(first: &str) {
    let heads = [first, "entries", "bytes", "roots", "ours"];
    let earlier = libraries::heads(["before", "ours / before"]);
    print_heads(&[&heads[..], &earlier].concat());
}

fn row(call: &mut Call, name: &str, table: &Table) {
    let sizes = [
        table.entries.len(),
        table.to_text().len(),
        table.roots.len(),
    ];
    let mut times = Each::<Vec<Duration>>::default();
    for _ in 0..RUNS {
        for (library, times) in Library::ALL.into_iter().zip(&mut times) {
            times.push(call.time_of(library, table));
        }
    }
    let times = times.map(median);
    let sizes = sizes.into_iter().map(|size| size.to_string());
    let cells = sizes.chain([told(times[0])]);
    print_row(name, cells.chain(libraries::cells(times)));
}
