//! The arguments of the command, and its help.

use std::path::PathBuf;

use clap::{Args, Parser, Subcommand};

/// The types that Nix modules ask for and give, by Pekonusit's proved calls
#[derive(Parser)]
#[command(name = "pekonusit", version, after_help = EXIT, subcommand_required = true)]
pub struct Arguments {
    #[command(subcommand)]
    pub action: Action,
}

const EXIT: &str = "\
Exit status:
  0  nothing has changed (canon: every table has a listing)
  1  some root's type has changed, or a show is new
  2  something was refused, a file cannot be read or written, or the command was called wrongly

Tables and listings are described in docs/FORMATS.md, a day's work in docs/SHOWS.md.";

#[derive(Subcommand)]
pub enum Action {
    #[command(after_help = EXIT)]
    Canon(Canon),
    #[command(after_help = EXIT)]
    Recheck(Recheck),
    #[command(after_help = EXIT)]
    Shows(Shows),
}

/// Print the listing of each table
///
/// A table that is refused gives a line `refused`, its number and its line, parted by tabs, and is explained on the standard error. The others go on.
#[derive(Args)]
pub struct Canon {
    /// The tables
    #[arg(required = true, value_name = "TABLE")]
    pub tables: Vec<PathBuf>,

    /// Print each root's type as a person reads it, in place of the listings
    #[arg(long)]
    pub show: bool,

    /// Write each listing into this folder, NAME.table's as NAME.listing, in place of printing it
    #[arg(long, value_name = "DIR")]
    pub listings: Option<PathBuf>,

    #[command(flatten)]
    pub numbered: Numbered,

    #[command(flatten)]
    pub depth: Depth,
}

/// Print the listing of a new table, given the old one and its listing
///
/// A first line has `kept` or `redone` for each root.
#[derive(Args)]
pub struct Recheck {
    /// The old table
    pub old: PathBuf,

    /// The new table
    pub new: PathBuf,

    /// The old table's listing
    pub listing: PathBuf,

    /// Print each root's type as a person reads it, before and after where it has changed, in place of the listing
    #[arg(long)]
    pub show: bool,

    /// Write the listing, without its first line, into this file, in place of printing it
    #[arg(long, value_name = "FILE")]
    pub write: Option<PathBuf>,

    #[command(flatten)]
    pub numbered: Numbered,

    #[command(flatten)]
    pub depth: Depth,
}

/// Recheck all shows of a folder, on all cores, and renew their listings
///
/// A show NAME has the tables OLD/NAME.table and NEW/NAME.table and the listing LISTINGS/NAME.listing. One that has no old table or no listing is new, and
/// its listing is made afresh. At the end the changed roots are told, with their types before and after, and what was kept, redone, changed and refused.
///
/// New listings are written as NAME.listing.new and take their names once all shows are done and told. A run that is stopped before has changed no listing;
/// start it again.
#[derive(Args)]
pub struct Shows {
    /// The folder of the tables as they were
    #[arg(long, value_name = "DIR")]
    pub old: PathBuf,

    /// The folder of the tables as they are now
    #[arg(long, value_name = "DIR")]
    pub new: PathBuf,

    /// The folder of the old tables' listings, which are renewed
    #[arg(long, value_name = "DIR")]
    pub listings: PathBuf,

    /// How many shows are checked at once [default: the number of cores]
    #[arg(long, value_name = "N")]
    pub jobs: Option<usize>,

    #[command(flatten)]
    pub numbered: Numbered,

    #[command(flatten)]
    pub depth: Depth,
}

#[derive(Args)]
pub struct Numbered {
    /// Have numbered listings, by the calls canon_numbered and recheck_numbered: each root's variables are 0, 1, 2 and so on, in the order of their first appearance
    #[arg(long)]
    pub numbered: bool,
}

impl Numbered {
    pub fn form(&self) -> pekonusit::Form {
        match self.numbered {
            true => pekonusit::Form::Numbered,
            false => pekonusit::Form::Plain,
        }
    }
}

#[derive(Args)]
pub struct Depth {
    /// How many levels are written of a type that takes more than 4,000 bytes; deeper parts are cut
    #[arg(long, value_name = "N", default_value_t = pekonusit::View::default().depth)]
    pub depth: u8,
}

impl Depth {
    pub fn view(&self) -> pekonusit::View {
        pekonusit::View {
            depth: self.depth,
            ..Default::default()
        }
    }
}
