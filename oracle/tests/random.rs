//! Random tables: accepted, read back as they were, and run without a panic.
//! ORACLE_TABLES says how many; the default is for the short run.

use std::collections::BTreeSet;

use oracle::{damage, gen, reader, Answer, Form};

fn tables() -> u64 {
    match std::env::var("ORACLE_TABLES") {
        Ok(count) => count.parse().expect("ORACLE_TABLES is a number"),
        Err(_) => 2_000,
    }
}

#[test]
fn generated_tables_are_accepted() {
    for index in 0..tables() {
        let (profile, table) = gen::mixed(1_000_000, index);
        let read = reader::read(&table.to_text());
        let name = gen::PROFILES[profile].name;
        assert_eq!(read, Ok(table), "profile {name}, table {index}");
    }
}

#[test]
fn long_tables_reach_the_ceilings() {
    let profile = gen::profile("long").expect("there is such a profile");
    let mut reached = BTreeSet::new();
    for seed in 0..100 {
        let table = gen::table(profile, seed);
        for (ceiling, at) in [
            ("text", table.to_text().len() == 65_536),
            ("names", table.names.len() == 1_024),
            ("name", table.names.iter().any(|name| name.len() == 255)),
            ("entries", table.entries.len() == 2_048),
            ("ids", ids(&table) == 8_192),
            ("pairs", table.pairs.len() == 2_048),
            ("marks", table.marks.len() == 512),
            ("roots", table.roots.len() == 64),
        ] {
            if at {
                reached.insert(ceiling);
            }
        }
    }
    assert_eq!(reached.len(), 8, "{reached:?}");
}

/// Ids of a table whose ids stand in bounds, lists and negations only.
fn ids(table: &oracle::Table) -> usize {
    use oracle::table::Entry;
    let cost = |entry: &Entry| match entry {
        Entry::Var { lowers, uppers } => lowers.len() + uppers.len(),
        Entry::List(_) | Entry::Neg(_) => 1,
        _ => 0,
    };
    table.entries.iter().map(cost).sum()
}

#[test]
#[cfg_attr(not(text_at_hand), ignore = "the Rust text is not at hand")]
fn generated_tables_are_answered() {
    for index in 0..tables() {
        let (profile, table) = gen::mixed(1_000_000, index);
        let name = gen::PROFILES[profile].name;
        let answers = oracle::answers_of(Form::Plain, &table);
        let answers = answers.unwrap_or_else(|fault| panic!("{name} {index}: {fault:?}"));
        assert_eq!(answers.len(), table.roots.len());
        for answer in &answers {
            if let Answer::Shown(shown) = &answer.answer {
                assert!(!shown.nodes.is_empty() && (1..=2).contains(&shown.passes));
            }
        }
    }
}

#[test]
#[cfg_attr(not(text_at_hand), ignore = "the Rust text is not at hand")]
fn equal_tables_have_equal_listings() {
    for index in 0..200 {
        let text = gen::mixed(2_000_000, index).1.to_text();
        for form in Form::ALL {
            assert_eq!(oracle::listing(form, &text), oracle::listing(form, &text));
        }
    }
}

/// Branches that no accepted table reaches; docs/ORACLE.md says why.
#[cfg(text_at_hand)]
const UNREACHABLE: [&str; 5] = [
    "concrete: frozen",
    "inter: all cancelled, Top",
    "factor: one union, empty",
    "factor: one union of one member",
    "factor: all shared, one member",
];

#[test]
#[cfg(text_at_hand)]
fn every_branch_is_taken() {
    let tables: Vec<_> = (0..2_000).map(|index| gen::mixed(0, index).1).collect();
    assert_eq!(oracle::cover::untaken(&tables), UNREACHABLE);
}

/// Every fault in every kind of line, and all refusals among them.
#[test]
fn damaged_tables_are_refused() {
    let places = damage::places() as u64;
    let mut numbers = BTreeSet::new();
    for first in 0..places {
        let mut refused = 0;
        let mut told = String::new();
        for round in 0..20 {
            let (name, text) = damage::table(first + round * places);
            told = name;
            if let Err(refusal) = reader::read(&text) {
                numbers.insert(refusal.number);
                refused += 1;
            }
        }
        assert!(refused > 0, "never refused: {told}");
    }
    assert_eq!(numbers.into_iter().collect::<Vec<_>>(), [1, 2, 3, 4, 5]);
}
