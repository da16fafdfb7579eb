//! Counts over many random tables: what the oracle answers, and which
//! branches of the text were taken.

use std::collections::BTreeMap;
use std::fmt::Write as _;

use crate::{damage, gen, listing, probe, reader, run, Answer, Form, Node, RootAnswer, Table};

/// Counts by name.
#[derive(Default)]
struct Counts(BTreeMap<&'static str, u64>);

impl Counts {
    fn add(&mut self, name: &'static str) {
        *self.0.entry(name).or_default() += 1;
    }

    fn rows(&self) -> impl Iterator<Item = (String, u64)> + '_ {
        self.0
            .iter()
            .map(|(name, count)| (name.to_string(), *count))
    }
}

/// Runs `tables` random tables over all profiles and tells the counts as
/// three tables in Markdown.
pub fn report(tables: u64) -> String {
    run::on_large_stack(|| {
        let mut answers = Counts::default();
        for index in 0..tables {
            let (_, table) = gen::mixed(0, index);
            match run::run(Form::Plain, &table) {
                Some(roots) => count_table(&roots, &mut answers),
                None => answers.add("table outside"),
            }
        }
        let branches = probe::BRANCHES.iter().map(|name| name.to_string());
        let mut text = String::new();
        rows(&mut text, "answer", answers.rows());
        rows(&mut text, "branch", branches.zip(probe::hits()));
        rows(&mut text, "damaged table", damaged(tables).rows());
        text
    })
}

/// The branches that none of these tables takes.
pub fn untaken(tables: &[Table]) -> Vec<&'static str> {
    run::on_large_stack(|| {
        for table in tables {
            run::run(Form::Plain, table);
        }
        let counted = probe::BRANCHES.iter().zip(probe::hits());
        counted
            .filter_map(|(name, count)| (count == 0).then_some(*name))
            .collect()
    })
}

fn rows(text: &mut String, head: &str, rows: impl Iterator<Item = (String, u64)>) {
    let _ = writeln!(text, "| {head} | count |\n|---|---|");
    for (name, count) in rows {
        let _ = writeln!(text, "| {name} | {count} |");
    }
    text.push('\n');
}

fn count_table(roots: &[RootAnswer], counts: &mut Counts) {
    if listing::write(Form::Plain, roots).len() > 65_536 {
        counts.add("refusal 12: listing beyond 65,536 bytes");
    }
    for root in roots {
        count_root(root, counts);
    }
}

fn count_root(answer: &RootAnswer, counts: &mut Counts) {
    counts.add("root");
    let measures = answer.measures;
    for (name, beyond) in [
        ("limit 6: more than 96 keys", measures.keys > 96),
        ("limit 7: more than 128 members", measures.list > 128),
        ("limit 8: more than 4,096 nodes", measures.nodes > 4_096),
        ("limit 9: more than 16,384 cells", measures.cells > 16_384),
    ] {
        if beyond {
            counts.add(name);
        }
    }
    let shown = match &answer.answer {
        Answer::Endless => return counts.add("root endless"),
        Answer::TooLong => return counts.add("root toolong"),
        Answer::Shown(shown) => shown,
    };
    counts.add(match shown.passes {
        1 => "passes 1",
        _ => "passes 2",
    });
    counts.add(match shown.sorted {
        true => "sorted 1",
        false => "sorted 0",
    });
    counts.add(match shown.bailed {
        true => "bailed 1",
        false => "bailed 0",
    });
    if shown.first_alone {
        counts.add("bailed 1, by the first pass alone");
    }
    if shown.operations > 512 {
        counts.add("operations above 512");
    }
    for node in &shown.nodes {
        counts.add(kind(node));
    }
}

fn kind(node: &Node) -> &'static str {
    match node {
        Node::TyVar(_) => "node tyvar",
        Node::Prim(_) => "node prim",
        Node::List(_) => "node list",
        Node::Fn(..) => "node fn",
        Node::Set(_) => "node set",
        Node::Union(_) => "node union",
        Node::Inter(_) => "node inter",
        Node::Named(..) => "node named",
        Node::Neg(_) => "node neg",
        Node::Bottom => "node bottom",
        Node::Top => "node top",
    }
}

fn damaged(tables: u64) -> Counts {
    let mut counts = Counts::default();
    for seed in 0..tables {
        let (_, text) = damage::table(seed);
        counts.add(match reader::read(&text) {
            Ok(_) => "accepted all the same",
            Err(refusal) => match (refusal.number, refusal.line) {
                (1, _) => "refused 1",
                (2, 0) => "refused 2, text length",
                (2, _) => "refused 2",
                (3, _) => "refused 3",
                (4, _) => "refused 4",
                _ => "refused 5",
            },
        });
    }
    counts
}
