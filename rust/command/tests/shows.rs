//! A hundred shows: renewed, with damaged ones among them, stopped and started
//! again, in a pipe and on a terminal.

mod common;

use std::env;
use std::fs::{self, File};
use std::process::{Command, Stdio};
use std::thread::sleep;
use std::time::{Duration, Instant};

use common::{words, Shows};
use pekonusit::{Calls, Done, Form, Listing};

/// How many shows; PEKONUSIT_SHOWS names another number.
fn count() -> usize {
    let named = env::var("PEKONUSIT_SHOWS").ok();
    named.map_or(100, |count| count.parse().unwrap())
}

/// Kept, redone and changed roots of all shows.
fn counts(shows: &Shows) -> [usize; 3] {
    let mut calls = Calls::new();
    let mut counts = [0; 3];
    let listings = shows.afresh(|show| &show.old);
    for (show, listing) in shows.all.iter().zip(&listings) {
        let (old, new) = (show.old.as_bytes(), show.new.as_bytes());
        let rechecked = calls.recheck(old, new, listing.as_bytes()).unwrap();
        let before = Listing::read(listing.as_bytes()).unwrap();
        let after = Listing::read(rechecked.listing.as_bytes()).unwrap();
        for done in rechecked.done {
            counts[usize::from(done == Done::Redone)] += 1;
        }
        let pairs = before.roots.iter().zip(&after.roots);
        counts[2] += pairs.filter(|(old, new)| !old.same_type(new)).count();
    }
    counts
}

#[test]
fn a_hundred_shows_are_renewed() {
    let shows = Shows::new("hundred", count());
    let ran = shows.run(&[]);
    assert_eq!(shows.listings(), shows.afresh(|show| &show.new));
    assert_eq!(shows.left_over(), 0);
    let [kept, redone, changed] = counts(&shows);
    assert!(kept > 0 && redone > changed && changed > 0);
    let total = format!(
        "{} shows, 0 of them new, 0 refused; roots: {kept} kept, {redone} redone, {changed} changed",
        count()
    );
    assert_eq!(ran.out.lines().last(), Some(&total[..]));
    assert_eq!(ran.out.matches("  changed\n").count(), changed);
    assert_eq!(ran.status, Some(1));
    // The listings are the new tables' now, so that nothing is told as changed.
    let ran = shows.run(&[]);
    let total = total.replace(&format!("{changed} changed"), "0 changed");
    assert_eq!((ran.out, ran.status), (format!("{total}\n"), Some(0)));
}

/// The options that ask for listings of this form.
fn options(form: Form) -> &'static [&'static str] {
    match form {
        Form::Plain => &[],
        Form::Numbered => &["--numbered"],
    }
}

#[test]
fn numbered_listings_are_renewed() {
    let plain = Shows::new("renewed_plain", 20).run(&[]);
    let shows = Shows::in_form(Form::Numbered, "renewed_numbered", 20);
    let ran = shows.run(&["--numbered"]);
    assert_eq!(shows.listings(), shows.afresh(|show| &show.new));
    assert_eq!(shows.left_over(), 0);
    // The edits of demands move no variable, so that both forms tell the same.
    assert_eq!((ran.out, ran.status), (plain.out, plain.status));
}

#[test]
fn listings_of_the_other_form_stay() {
    let words = [
        (Form::Plain, Form::Numbered, "it is numbered; recheck_numbered takes it, and canon makes a plain one afresh\n    2: numbered\n"),
        (Form::Numbered, Form::Plain, "it is plain; recheck takes it, and canon_numbered makes a numbered one afresh\n    2: root>"),
    ];
    for (asked, found, words) in words {
        let shows = Shows::in_form(found, &format!("other_than_{asked:?}"), 3);
        let before = shows.listings();
        let ran = shows.run(options(asked));
        let told = format!("show-00000\n  refused 11 at line 2 of the old listing: {words}");
        assert!(ran.out.starts_with(&told), "{}", ran.out);
        assert!(ran.out.contains("\n3 shows, 0 of them new, 3 refused; "));
        assert_eq!((shows.listings(), ran.status), (before, Some(2)));
        assert_eq!(shows.left_over(), 0);
    }
}

#[test]
fn the_number_of_threads_does_not_matter() {
    let one = Shows::new("one_thread", 30).run(&["--jobs", "1"]);
    let three = Shows::new("three_threads", 30).run(&["--jobs", "3"]);
    assert_eq!((one.out, one.status), (three.out, three.status));
}

/// Damages the shows 3 to 7, each in its own way, and gives what must be told
/// of them.
fn damage(shows: &Shows) -> [String; 5] {
    let edited = |i: usize, old, new| shows.all[i].new.replace(old, new);
    fs::write(shows.new_table(3), edited(3, "list\t0", "list\t99")).unwrap();
    fs::write(shows.old(4), "budget\n").unwrap();
    fs::write(shows.listing(5), "answers\t8\nroot\t1\n").unwrap();
    fs::write(shows.new_table(6), edited(6, "budget\t4", "budget\t3")).unwrap();
    fs::remove_file(shows.new_table(7)).unwrap();
    let lost = shows.new_table(7).display().to_string();
    [
        "refused 3 at line 19 of the new table: an id, a key or a name number is out of range: \
         no entry or name has it\n    19: list>99\n"
            .to_string(),
        "refused 1 at line 1 of the old table: ".to_string(),
        "refused 11 at line 2 of the old listing: ".to_string(),
        "refused 10 for the tables: ".to_string(),
        format!("{lost}: No such file"),
    ]
}

#[test]
fn a_damaged_show_is_told_and_the_others_go_on() {
    let shows = Shows::new("damaged", 20);
    let told = damage(&shows);
    let before = shows.listings();
    let ran = shows.run(&[]);
    for (show, words) in shows.all[3..].iter().zip(told) {
        let told = format!("{}\n  {words}", show.name);
        assert!(ran.out.contains(&told), "{told}\n{}", ran.out);
    }
    let total = "\n20 shows, 0 of them new, 5 refused; roots: ";
    assert!(ran.out.contains(total), "{}", ran.out);
    assert_eq!(ran.status, Some(2));
    let (after, afresh) = (shows.listings(), shows.afresh(|show| &show.new));
    for i in 0..20 {
        let expected = if (3..=7).contains(&i) {
            &before
        } else {
            &afresh
        };
        assert_eq!(after[i], expected[i], "{i}");
    }
    assert_eq!(shows.left_over(), 0);
}

#[test]
fn a_new_show_gets_a_listing() {
    for form in [Form::Plain, Form::Numbered] {
        new_shows(form);
    }
}

fn new_shows(form: Form) {
    let shows = Shows::in_form(form, "new_show", 4);
    fs::remove_file(shows.listing(1)).unwrap();
    fs::remove_file(shows.old(2)).unwrap();
    let ran = shows.run(options(form));
    assert!(
        ran.out.contains("show-00001, which is new\n  root "),
        "{}",
        ran.out
    );
    assert!(
        ran.out.contains("show-00002, which is new\n  root "),
        "{}",
        ran.out
    );
    assert!(ran.out.contains("\n4 shows, 2 of them new, 0 refused; "));
    assert_eq!(shows.listings(), shows.afresh(|show| &show.new));
    assert_eq!(ran.status, Some(1));
}

/// Waits until so many new listings stand beside the old ones.
fn wait_for_beside(shows: &Shows, count: usize) {
    let begun = Instant::now();
    while shows.left_over() < count {
        assert!(
            begun.elapsed() < Duration::from_secs(120),
            "the run does not get there"
        );
        sleep(Duration::from_millis(5));
    }
}

#[test]
fn a_killed_run_loses_nothing() {
    let undisturbed = Shows::new("undisturbed", 40).run(&[]);
    let shows = Shows::new("killed", 40);
    let (old, new) = (
        shows.afresh(|show| &show.old),
        shows.afresh(|show| &show.new),
    );
    // The table in the middle is a pipe that nobody writes into: there the run
    // stands still until it is killed.
    fs::remove_file(shows.new_table(20)).unwrap();
    let made = Command::new("mkfifo").arg(shows.new_table(20)).status();
    assert!(made.unwrap().success());
    let mut child = shows.command().args(["--jobs", "1"]).spawn().unwrap();
    let renewed = (0..20).filter(|i| old[*i] != new[*i]).count();
    assert!(renewed > 0);
    wait_for_beside(&shows, renewed);
    child.kill().unwrap();
    child.wait().unwrap();
    assert_eq!(shows.listings(), old);
    fs::remove_file(shows.new_table(20)).unwrap();
    fs::write(shows.new_table(20), &shows.all[20].new).unwrap();
    let again = shows.run(&[]);
    assert_eq!(
        (again.out, again.status),
        (undisturbed.out, undisturbed.status)
    );
    assert_eq!(shows.listings(), new);
    assert_eq!(shows.left_over(), 0);
}

#[test]
fn a_run_stopped_while_listings_take_their_names_is_made_whole() {
    let shows = Shows::new("renaming", 20);
    let new = shows.afresh(|show| &show.new);
    // As such a run leaves it: half of the new listings in place, the others
    // still beside, the last of them cut short.
    for (i, listing) in new.iter().enumerate() {
        match i < 10 {
            true => fs::write(shows.listing(i), listing).unwrap(),
            false => fs::write(beside(&shows, i), &listing[..listing.len() - i % 2]).unwrap(),
        }
    }
    let ran = shows.run(&[]);
    assert_ne!(ran.status, Some(2), "{}", ran.out);
    assert_eq!(shows.listings(), new);
    assert_eq!(shows.left_over(), 0);
}

fn beside(shows: &Shows, i: usize) -> String {
    format!("{}.new", shows.listing(i).display())
}

#[test]
fn what_cannot_be_told_changes_nothing() {
    let shows = Shows::new("untold", 10);
    let before = shows.listings();
    let full = File::create("/dev/full").unwrap();
    let output = shows.command().stdout(full).output().unwrap();
    assert_eq!(output.status.code(), Some(2));
    assert!(String::from_utf8(output.stderr)
        .unwrap()
        .starts_with("pekonusit: "));
    assert_eq!(shows.listings(), before);
}

#[test]
fn a_folder_without_shows_is_refused() {
    let shows = Shows::new("empty", 0);
    let ran = shows.run(&[]);
    assert!(ran.err.starts_with("pekonusit: no file in "), "{}", ran.err);
    assert_eq!((ran.out.as_str(), ran.status), ("", Some(2)));
}

#[test]
fn no_bar_and_no_colour_in_a_pipe() {
    let ran = Shows::new("pipe", 10).run(&[]);
    assert_eq!(ran.err, "");
    assert!(!ran.out.contains('\x1b') && !ran.out.contains("of 10 shows"));
    assert!(ran.out.contains("  ^"), "{}", ran.out);
}

#[test]
fn a_bar_and_colour_on_a_terminal() {
    let shows = Shows::new("terminal", 10);
    let line = [words(), shows.arguments()].concat().join(" ");
    let output = Command::new("script")
        .args(["--quiet", "--return", "--command", &line, "/dev/null"])
        .env("TERM", "xterm")
        .env_remove("NO_COLOR")
        .stdin(Stdio::null())
        .output();
    let output = output.expect("there is a pseudo-terminal to be had");
    let shown = String::from_utf8(output.stdout).unwrap();
    assert!(shown.contains("of 10 shows"), "{shown}");
    assert!(
        shown.contains("\x1b[31m") && shown.contains("\x1b[32m"),
        "{shown}"
    );
    assert!(
        shown.contains("\r\n10 shows, 0 of them new, 0 refused; "),
        "{shown}"
    );
    assert_eq!(output.status.code(), Some(1));
    assert_eq!(shows.listings(), shows.afresh(|show| &show.new));
}
