//! What is printed for a person.

use std::io::{self, Write};

use pekonusit::Done;

use crate::check::Checked;
use crate::marked;
use crate::show::{Outcome, Show};
use crate::Verdict;

/// What has changed and what was refused, show by show, and the counts.
pub fn shows(out: &mut impl Write, shows: &[Show], outcomes: &[Outcome]) -> io::Result<Verdict> {
    let mut verdict = Verdict::Same;
    let (mut kept, mut redone, mut changed) = (0, 0, 0);
    let (mut new, mut refused) = (0, 0);
    for (show, outcome) in shows.iter().zip(outcomes) {
        let of_show = told(out, show, outcome)?;
        verdict = verdict.max(of_show);
        let counts = outcome.counts();
        kept += counts.0;
        redone += counts.1;
        changed += counts.2;
        new += usize::from(matches!(outcome, Outcome::New(..)));
        refused += usize::from(of_show == Verdict::Refused);
    }
    writeln!(
        out,
        "{} shows, {new} of them new, {refused} refused; roots: {kept} kept, {redone} redone, {changed} changed",
        shows.len()
    )?;
    Ok(verdict)
}

/// Tells of a show, if there is anything to tell.
fn told(out: &mut impl Write, show: &Show, outcome: &Outcome) -> io::Result<Verdict> {
    let name = show.name.to_string_lossy();
    match outcome {
        Outcome::Refused(words) => {
            writeln!(out, "{name}\n  {words}\n")?;
            Ok(Verdict::Refused)
        }
        Outcome::New(roots, _) => {
            writeln!(out, "{name}, which is new")?;
            signatures(out, roots)?;
            writeln!(out)?;
            Ok(Verdict::Changed)
        }
        Outcome::Rechecked(roots, _) if roots.iter().any(|root| root.change.is_some()) => {
            writeln!(out, "{name}")?;
            for root in roots.iter().filter(|root| root.change.is_some()) {
                checked(out, root)?;
            }
            writeln!(out)?;
            Ok(Verdict::Changed)
        }
        Outcome::Rechecked(..) => Ok(Verdict::Same),
    }
}

/// Roots with their signatures, a line each.
pub fn signatures(out: &mut impl Write, roots: &[(String, String)]) -> io::Result<()> {
    for (title, signature) in roots {
        writeln!(out, "  {title}  {signature}")?;
    }
    Ok(())
}

/// A rechecked root: its signature, or both where it has changed.
pub fn checked(out: &mut impl Write, root: &Checked) -> io::Result<()> {
    let done = match root.done {
        Done::Kept => "kept",
        Done::Redone => "redone",
    };
    let Some(change) = &root.change else {
        return writeln!(out, "  {}  {done}  {}", root.title, root.signature);
    };
    writeln!(out, "  {}  changed", root.title)?;
    if let Some((before, after)) = &change.nodes {
        writeln!(out, "      {}", root.signature)?;
        writeln!(
            out,
            "    What has changed is not seen in this; the nodes of the listing:"
        )?;
        for line in marked::lines(before, after) {
            writeln!(out, "    {line}")?;
        }
        return Ok(());
    }
    let (before, after) = marked::signatures(&change.before, &root.signature);
    for (sign, marked) in [("-", before), ("+", after)] {
        writeln!(out, "    {sign} {}", marked.text)?;
        // A terminal has colour for it, and breaks long lines.
        let carets = marked.carets.trim_end();
        if !console::colors_enabled() && !carets.is_empty() {
            writeln!(out, "      {carets}")?;
        }
    }
    Ok(())
}
