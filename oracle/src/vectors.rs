//! The vectors: a fixed sample of tables with the text's answers, for tests
//! that run without any Rust.

mod numbered;

use crate::examples;
use crate::gen::{self, PROFILES};
use crate::records::{self, Record, BY_RUST};
use crate::table::Table;
use crate::{listing, probe, reader, run, Answer, Form, RootAnswer};

/// Seeds looked at in each profile.
const SEEDS: u64 = 600;
/// Tables wanted for each branch of the text.
const EACH_BRANCH: u32 = 3;
/// Tables wanted in which a pass bails.
const BAILED: usize = 30;
/// Tables wanted in all.
const TABLES: usize = 300;

/// The most bytes of table and listing, and the least number of tables, of a
/// profile.
fn share(profile: usize) -> (usize, usize) {
    match PROFILES[profile].name {
        "chains" => (3_500, 10),
        "bounds64" => (3_000, 16),
        "budget" | "endless" => (4_500, 14),
        "long" => (22_000, 5),
        // Near the limits.
        "wide" => (0, 0),
        _ => (1_200, 26),
    }
}

/// A table that may be a vector, and what its run did.
struct Candidate {
    profile: usize,
    seed: u64,
    record: Vec<u8>,
    branches: Vec<usize>,
    bailed: bool,
}

/// The text of crates/examples/stdin with its vectors made anew, behind the
/// other records; none where it is not in form.
pub fn renewed(examples: &[u8]) -> Option<Vec<u8>> {
    let mut text = Vec::new();
    for record in records::read(examples)? {
        if record.by != BY_RUST {
            text.extend(record.to_text());
        }
    }
    text.extend(vectors());
    Some(text)
}

fn vectors() -> Vec<u8> {
    run::on_large_stack(|| {
        let mut text = Vec::new();
        for example in examples::all() {
            let table = reader::read(&example.table).expect("the examples are accepted");
            let answers = run::run(Form::Plain, &table).expect("the examples are in the domain");
            text.extend(record(Form::Plain, &table, &answers));
        }
        for chosen in choose() {
            text.extend(chosen.record);
        }
        text.extend(numbered::records().flatten());
        text
    })
}

/// First tables for branches that have too few, then tables that bail, then
/// tables of each profile up to its share, then any up to the number wanted.
fn choose() -> Vec<Candidate> {
    let mut rest: Vec<Candidate> = candidates();
    let mut chosen: Vec<Candidate> = Vec::new();
    let mut per_branch = vec![0; probe::BRANCHES.len()];
    take(&mut rest, &mut chosen, |candidate, _| {
        let needed = |&branch: &usize| per_branch[branch] < EACH_BRANCH;
        let wanted = candidate.branches.iter().any(needed);
        if wanted {
            for &branch in &candidate.branches {
                per_branch[branch] += 1;
            }
        }
        wanted
    });
    take(&mut rest, &mut chosen, |candidate, chosen| {
        candidate.bailed && chosen.iter().filter(|c| c.bailed).count() < BAILED
    });
    take(&mut rest, &mut chosen, |candidate, chosen| {
        let same = chosen.iter().filter(|c| c.profile == candidate.profile);
        same.count() < share(candidate.profile).1
    });
    let most = TABLES.saturating_sub(examples::all().len());
    take(&mut rest, &mut chosen, |candidate, chosen| {
        chosen.len() < most && candidate.record.len() < 1_200
    });
    chosen.sort_by_key(|candidate| (candidate.profile, candidate.seed));
    chosen
}

/// Moves the candidates that are wanted, given those chosen so far.
fn take(
    rest: &mut Vec<Candidate>,
    chosen: &mut Vec<Candidate>,
    mut wanted: impl FnMut(&Candidate, &[Candidate]) -> bool,
) {
    for candidate in std::mem::take(rest) {
        if wanted(&candidate, chosen) {
            chosen.push(candidate);
        } else {
            rest.push(candidate);
        }
    }
}

fn candidates() -> Vec<Candidate> {
    let mut found = Vec::new();
    for profile in 0..PROFILES.len() {
        found.extend((0..SEEDS).filter_map(|seed| candidate(profile, seed)));
    }
    found
}

fn candidate(profile: usize, seed: u64) -> Option<Candidate> {
    let table = gen::table(profile, seed);
    let before = probe::hits();
    let answers = run::run(Form::Plain, &table)?;
    let after = probe::hits();
    let record = record(Form::Plain, &table, &answers);
    let (most_bytes, _) = share(profile);
    if record.len() > most_bytes || !answers.iter().all(is_usable) {
        return None;
    }
    Some(Candidate {
        profile,
        seed,
        record,
        bailed: answers.iter().any(bails),
        branches: (0..before.len())
            .filter(|&b| before[b] != after[b])
            .collect(),
    })
}

/// In the domain and far from the limits 6 to 9. The port may store more
/// nodes and cells than the text, so those two keep half their room.
fn is_usable(root: &RootAnswer) -> bool {
    let measures = root.measures;
    let Answer::Shown(shown) = &root.answer else {
        return false;
    };
    !shown.sorted
        && measures.keys <= 96
        && measures.list <= 128
        && measures.nodes <= 2_048
        && measures.cells <= 8_192
}

fn bails(root: &RootAnswer) -> bool {
    matches!(&root.answer, Answer::Shown(shown) if shown.bailed)
}

fn record(form: Form, table: &Table, answers: &[RootAnswer]) -> Vec<u8> {
    let record = Record {
        call: match form {
            Form::Plain => "canon",
            Form::Numbered => "canon_numbered",
        },
        given: &table.to_text(),
        by: BY_RUST,
        answer: &listing::write(form, answers),
    };
    record.to_text()
}
