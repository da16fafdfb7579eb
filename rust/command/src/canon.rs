//! canon on tables.

use std::io::{self, BufWriter, Write};
use std::path::Path;

use pekonusit::{Calls, View};

use crate::arguments::Canon;
use crate::files::{self, Beside};
use crate::show::explained;
use crate::{check, report, tell, Verdict};

pub fn run(arguments: &Canon) -> io::Result<Verdict> {
    let mut calls = Calls::new();
    let mut out = BufWriter::new(io::stdout().lock());
    let mut verdict = Verdict::Same;
    for path in &arguments.tables {
        match files::read(path) {
            Ok(table) => {
                let of_table = one(&mut out, arguments, &mut calls, path, &table)?;
                verdict = verdict.max(of_table);
            }
            Err(trouble) => {
                tell(&trouble);
                verdict = Verdict::Refused;
            }
        }
    }
    out.flush()?;
    Ok(verdict)
}

/// Prints or writes the listing of one table.
fn one(
    out: &mut impl Write,
    arguments: &Canon,
    calls: &mut Calls,
    path: &Path,
    table: &[u8],
) -> io::Result<Verdict> {
    let listing = match calls.canon_in(arguments.numbered.form(), table) {
        Ok(listing) => listing,
        Err(refusal) => {
            if !arguments.show && arguments.listings.is_none() {
                writeln!(out, "refused\t{}\t{}", refusal.number, refusal.line)?;
            }
            eprintln!("{}: {}", path.display(), explained(&refusal, table));
            return Ok(Verdict::Refused);
        }
    };
    if let Some(folder) = &arguments.listings {
        let name = path.file_stem().unwrap_or_default().to_os_string();
        let place = files::of(folder, &name, files::LISTING);
        Beside::new(&place)?.replace(&listing)?;
    }
    match (arguments.show, &arguments.listings) {
        (true, _) => show(out, path, table, &listing, arguments.depth.view())?,
        (false, None) => out.write_all(listing.as_bytes())?,
        (false, Some(_)) => {}
    }
    Ok(Verdict::Same)
}

fn show(
    out: &mut impl Write,
    path: &Path,
    table: &[u8],
    listing: &str,
    view: View,
) -> io::Result<()> {
    writeln!(out, "{}", path.display())?;
    report::signatures(out, &check::signatures(table, listing, view)?)
}
