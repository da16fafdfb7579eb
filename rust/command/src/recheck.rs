//! recheck on two tables and a listing.

use std::io::{self, BufWriter, Write};

use pekonusit::{Calls, Done, Rechecked};

use crate::arguments::Recheck;
use crate::check::{self, Checked};
use crate::files::{self, Beside};
use crate::show::Texts;
use crate::{report, Verdict};

pub fn run(arguments: &Recheck) -> io::Result<Verdict> {
    let texts = Texts {
        old: files::read(&arguments.old)?,
        new: files::read(&arguments.new)?,
        listing: files::read(&arguments.listing)?,
    };
    let mut out = BufWriter::new(io::stdout().lock());
    let form = arguments.numbered.form();
    let rechecked = match Calls::new().recheck_in(form, &texts.old, &texts.new, &texts.listing) {
        Ok(rechecked) => rechecked,
        Err(refusal) => {
            if !arguments.show && arguments.write.is_none() {
                writeln!(out, "refused\t{}\t{}", refusal.number, refusal.line)?;
            }
            eprintln!("{}", texts.explained(&refusal));
            return Ok(Verdict::Refused);
        }
    };
    let view = arguments.depth.view();
    let roots = check::roots(&texts.new, &texts.listing, &rechecked, view, true)?;
    match (arguments.show, &arguments.write) {
        (true, _) => show(&mut out, &roots)?,
        (false, None) => print(&mut out, &rechecked)?,
        (false, Some(_)) => {}
    }
    out.flush()?;
    if let Some(path) = &arguments.write {
        Beside::new(path)?.replace(&rechecked.listing)?;
    }
    Ok(match roots.iter().any(|root| root.change.is_some()) {
        true => Verdict::Changed,
        false => Verdict::Same,
    })
}

/// As the program recheck prints it.
fn print(out: &mut impl Write, rechecked: &Rechecked) -> io::Result<()> {
    let words = rechecked.done.iter().map(|done| match done {
        Done::Kept => "kept",
        Done::Redone => "redone",
    });
    let words: Vec<&str> = words.collect();
    writeln!(out, "{}", words.join("\t"))?;
    out.write_all(rechecked.listing.as_bytes())
}

fn show(out: &mut impl Write, roots: &[Checked]) -> io::Result<()> {
    for root in roots {
        report::checked(out, root)?;
    }
    Ok(())
}
