//! All shows of a folder, on all cores.

use std::collections::BTreeSet;
use std::io::{self, BufWriter, Write};
use std::num::NonZeroUsize;
use std::sync::atomic::{AtomicUsize, Ordering};
use std::thread;

use indicatif::{ProgressBar, ProgressStyle};
use pekonusit::{Calls, Form, View};

use crate::arguments::Shows;
use crate::show::{Outcome, Show};
use crate::{files, report, Verdict};

/// What a call takes of the stack fits into it.
const STACK: usize = 2 << 20;

pub fn run(arguments: &Shows) -> io::Result<Verdict> {
    let shows = collect(arguments)?;
    let cores = thread::available_parallelism().map_or(1, NonZeroUsize::get);
    let jobs = arguments.jobs.unwrap_or(cores).clamp(1, shows.len());
    let (form, view) = (arguments.numbered.form(), arguments.depth.view());
    let outcomes = check_all(&shows, jobs, form, view);
    let mut out = BufWriter::new(io::stdout().lock());
    let verdict = report::shows(&mut out, &shows, &outcomes)?;
    out.flush()?;
    // The listings are renewed once everything is told: what a stopped run had
    // to tell, the next one tells again.
    for beside in outcomes.iter().filter_map(Outcome::beside) {
        beside.rename()?;
    }
    Ok(verdict)
}

/// The shows by name. One that has lost its table is among them, and refused.
fn collect(arguments: &Shows) -> io::Result<Vec<Show>> {
    let (old, new) = (&arguments.old, &arguments.new);
    let mut names = BTreeSet::from_iter(files::tables(new)?);
    names.extend(files::tables(old)?);
    if names.is_empty() {
        let words = format!("no file in {} ends in .table", new.display());
        return Err(io::Error::other(words));
    }
    let named = |name| Show::new(name, old, new, &arguments.listings);
    Ok(names.iter().map(named).collect())
}

/// Checks the shows on so many threads, each with scratch of its own.
fn check_all(shows: &[Show], jobs: usize, form: Form, view: View) -> Vec<Outcome> {
    let bar = bar(shows.len());
    let next = AtomicUsize::new(0);
    let work = || {
        let mut calls = Calls::new();
        let mut done = Vec::new();
        loop {
            let i = next.fetch_add(1, Ordering::Relaxed);
            let Some(show) = shows.get(i) else {
                return done;
            };
            done.push((i, show.check(&mut calls, form, view)));
            bar.inc(1);
        }
    };
    let mut done: Vec<(usize, Outcome)> = thread::scope(|scope| {
        let start = |_| {
            let thread = thread::Builder::new().stack_size(STACK);
            let started = thread.spawn_scoped(scope, work);
            started.expect("a thread can be started")
        };
        let threads: Vec<_> = (0..jobs).map(start).collect();
        let joined = threads.into_iter().map(|thread| thread.join());
        joined
            .flat_map(|done| done.expect("a check does not panic"))
            .collect()
    });
    bar.finish_and_clear();
    done.sort_by_key(|(i, _)| *i);
    done.into_iter().map(|(_, outcome)| outcome).collect()
}

/// A bar on the standard error, where that is a terminal.
fn bar(shows: usize) -> ProgressBar {
    let style = ProgressStyle::with_template("{bar:40} {pos} of {len} shows, {eta} left");
    let bar = ProgressBar::new(shows as u64);
    bar.set_style(style.expect("the template is in form"));
    bar.tick();
    bar
}
