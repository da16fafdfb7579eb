//! canon and recheck on files: what is printed, and the exit status.

mod common;

use std::fs;
use std::path::Path;

use common::{run, Ran, Shows};

const TALK_SHOW: &str = "examples/talk-show.table";
const TWO_SHOWS: &str = "examples/two-shows.table";
const EDITED: &str = "examples/two-shows-edited.table";
const LISTING: &str = "examples/two-shows.listing";
const BAILED: &str = "examples/bailed.table";

const ANSWER: &str =
    "answers>1\nroot>5>+>1>9>0>0>4\n0>prim>0\n1>set>0:0,1:0>->1>-\n2>list>0\n3>fn>1>2\n";

#[test]
fn canon_prints_listings() {
    let ran = run(&["canon", TALK_SHOW, TALK_SHOW]);
    assert_eq!(ran.out, ANSWER.replace('>', "\t").repeat(2));
    assert_eq!((ran.err.as_str(), ran.status), ("", Some(0)));
}

#[test]
fn canon_prints_numbered_listings() {
    let ran = run(&["canon", "--numbered", BAILED]);
    let plain = fs::read_to_string(Path::new(common::ROOT).join("examples/bailed.listing"));
    let mut numbered = plain.unwrap().replacen('\n', "\nnumbered\n", 1);
    // The first root has the variable 24, the second one 40 and then 3.
    for (variable, number) in [(24, 0), (40, 0), (3, 1)] {
        let line = |number| format!("\ttyvar\t{number}\n");
        assert!(numbered.contains(&line(variable)));
        numbered = numbered.replace(&line(variable), &line(number));
    }
    assert_eq!((ran.out, ran.status), (numbered, Some(0)));
    // The letters of a signature are in order of appearance in both forms.
    let shown = run(&["canon", "--numbered", "--show", BAILED]).out;
    assert_eq!(shown, run(&["canon", "--show", BAILED]).out);
}

#[test]
fn canon_shows_signatures() {
    let ran = run(&["canon", "--show", TALK_SHOW, EDITED]);
    let shown = "examples/talk-show.table\n  root 5 +  { actual : Int, planned : Int, .. } -> [Int]\n\
                 examples/two-shows-edited.table\n  root 5 +  { actual? : Int, planned : Int, .. } -> [Int]\n  root 2 +  [Int]\n";
    assert_eq!((ran.out.as_str(), ran.status), (shown, Some(0)));
}

#[test]
fn canon_tells_that_a_budget_ran_out() {
    let ran = run(&["canon", "--show", BAILED]);
    let shown =
        "examples/bailed.table\n  root 0 + (budget ran out)  (a -> a) -> a -> Int -> Int\n  \
                 root 6 + (budget ran out)  (a -> a) -> a -> b\n";
    assert_eq!((ran.out.as_str(), ran.status), (shown, Some(0)));
}

#[test]
fn canon_goes_on_after_a_refusal() {
    let ran = run(&["canon", LISTING, "no-such-file", TALK_SHOW]);
    assert_eq!(
        ran.out,
        format!("refused\t1\t1\n{}", ANSWER.replace('>', "\t"))
    );
    let refusal =
        "examples/two-shows.listing: refused 1 at line 1 of the table: the line is not in form";
    assert!(ran.err.starts_with(refusal), "{}", ran.err);
    assert!(
        ran.err
            .contains("\n    1: answers>2\npekonusit: no-such-file: No such file"),
        "{}",
        ran.err
    );
    assert_eq!(ran.status, Some(2));
}

#[test]
fn canon_writes_listings() {
    let shows = Shows::new("canon_writes", 3);
    let folder = shows.folder("listings");
    fs::remove_file(shows.listing(0)).unwrap();
    fs::write(shows.listing(1), "").unwrap();
    let tables: Vec<_> = (0..3).map(|i| shows.new_table(i)).collect();
    let mut command = common::pekonusit();
    command
        .arg("canon")
        .arg("--listings")
        .arg(folder)
        .args(tables);
    let output = command.output().unwrap();
    assert_eq!((output.stdout.len(), output.status.code()), (0, Some(0)));
    assert_eq!(shows.listings(), shows.afresh(|show| &show.new));
    assert_eq!(shows.left_over(), 0);
}

#[test]
fn recheck_prints_the_listing() {
    let ran = run(&["recheck", TWO_SHOWS, EDITED, LISTING]);
    let listing = run(&["canon", EDITED]).out;
    assert_eq!(
        (ran.out, ran.status),
        (format!("redone\tkept\n{listing}"), Some(1))
    );
    let ran = run(&["recheck", TWO_SHOWS, TWO_SHOWS, LISTING]);
    let listing = run(&["canon", TWO_SHOWS]).out;
    assert_eq!(
        (ran.out, ran.status),
        (format!("kept\tkept\n{listing}"), Some(0))
    );
}

#[test]
fn recheck_writes_the_listing() {
    let shows = Shows::new("recheck_writes", 1);
    let mut command = common::pekonusit();
    command
        .arg("recheck")
        .args([shows.old(0), shows.new_table(0), shows.listing(0)]);
    let ran: Ran = command
        .arg("--write")
        .arg(shows.listing(0))
        .output()
        .unwrap()
        .into();
    assert_eq!((ran.out.as_str(), ran.err.as_str()), ("", ""));
    assert_ne!(shows.all[0].old, shows.all[0].new);
    assert_eq!(
        (shows.listings(), ran.status),
        (shows.afresh(|show| &show.new), Some(1))
    );
    assert_eq!(shows.left_over(), 0);
}

#[test]
fn recheck_shows_the_difference() {
    let ran = run(&["recheck", "--show", TWO_SHOWS, EDITED, LISTING]);
    let shown = "  root 5 +  changed
    - { actual : Int, planned : Int, .. } -> [Int]
        ^^^^^^
    + { actual? : Int, planned : Int, .. } -> [Int]
        ^^^^^^^
  root 2 +  kept  [Int]
";
    assert_eq!((ran.out.as_str(), ran.status), (shown, Some(1)));
}

/// Writes a text, `>` for each tab, into a file of a test and gives its path.
fn file(test: &str, name: &str, text: &str) -> String {
    let folder = Path::new(env!("CARGO_TARGET_TMPDIR")).join(test);
    fs::create_dir_all(&folder).unwrap();
    let path = folder.join(name);
    fs::write(&path, text.replace('>', "\t")).unwrap();
    path.to_str().unwrap().to_string()
}

#[test]
fn a_difference_that_no_signature_shows_is_told_by_nodes() {
    let file = |name, text| file("hidden", name, text);
    let old = file("old", "budget>9\nname>Log\nprim>0\nnamed>0>0\nroot>1>+\n");
    let new = file("new", "budget>9\nname>Log\nprim>1\nnamed>0>0\nroot>1>+\n");
    let listing = file(
        "listing",
        "answers>1\nroot>1>+>1>2>0>0>2\n0>prim>0\n1>named>0>0\n",
    );
    let ran = run(&["recheck", "--show", &old, &new, &listing]);
    let shown = "  root 1 +  changed
      Log
    What has changed is not seen in this; the nodes of the listing:
    - 0>prim>0
    + 0>prim>1
";
    assert_eq!((ran.out, ran.status), (shown.replace('>', "\t"), Some(1)));
}

#[test]
fn a_difference_in_a_roots_own_node_is_told_in_both_forms() {
    let file = |name: &str, text: &str| file("own_node", name, text);
    let table = "budget>9\nname>log\nset>->->0>-\nroot>0>+\n";
    let old = file("old", table);
    // An optional key that is no field.
    let new = file("new", &table.replace("->->0>-", "->->0>0"));
    let shown = "  root 0 +  changed
      { }
    What has changed is not seen in this; the nodes of the listing:
    - 0>set>->->0>-
    + 0>set>->->0>0
";
    for options in [&[][..], &["--numbered"]] {
        let listing = file("listing", &run(&[&["canon", &old], options].concat()).out);
        let words = ["recheck", "--show", &old, &new, &listing];
        let ran = run(&[&words, options].concat());
        assert_eq!((ran.out, ran.status), (shown.replace('>', "\t"), Some(1)));
    }
}

#[test]
fn another_variable_is_no_change_in_numbered_listings() {
    let file = |name: &str, text: &str| file("variable", name, text);
    let table = "budget>9\nvar>->-\nvar>->-\nlist>0\nroot>2>+\n";
    let old = file("old", table);
    let new = file("new", &table.replace("list>0", "list>1"));
    let listed = run(&["canon", &old]).out;
    let listing = file("listing", &listed);
    let ran = run(&["recheck", "--show", &old, &new, &listing]);
    let shown = "  root 2 +  changed
      [a]
    What has changed is not seen in this; the nodes of the listing:
    - 0>tyvar>0
    + 0>tyvar>1
";
    assert_eq!((ran.out, ran.status), (shown.replace('>', "\t"), Some(1)));
    let numbered = run(&["canon", "--numbered", &old]).out;
    let listing = file("numbered", &numbered);
    let words = ["recheck", "--numbered", &old, &new, &listing];
    let ran = run(&words);
    assert_eq!(
        (ran.out, ran.status),
        (format!("redone\n{numbered}"), Some(0))
    );
    let ran = run(&[&words[..], &["--show"]].concat());
    let shown = "  root 2 +  redone  [a]\n";
    assert_eq!((ran.out.as_str(), ran.status), (shown, Some(0)));
}

#[test]
fn recheck_tells_a_listing_of_the_other_form() {
    let ran = run(&["recheck", "--numbered", TWO_SHOWS, EDITED, LISTING]);
    assert_eq!(
        (ran.out.as_str(), ran.status),
        ("refused\t11\t2\n", Some(2))
    );
    assert_eq!(
        ran.err,
        "refused 11 at line 2 of the old listing: it is plain; recheck takes it, and canon_numbered makes a numbered one afresh\n    \
         2: root>5>+>1>9>0>0>4\n"
    );
    let numbered = run(&["canon", "--numbered", TWO_SHOWS]).out;
    let listing = file("other_form", "listing", &numbered);
    let ran = run(&["recheck", "--show", TWO_SHOWS, EDITED, &listing]);
    assert_eq!((ran.out.as_str(), ran.status), ("", Some(2)));
    assert_eq!(
        ran.err,
        "refused 11 at line 2 of the old listing: it is numbered; recheck_numbered takes it, and canon makes a plain one afresh\n    \
         2: numbered\n"
    );
}

#[test]
fn recheck_tells_a_refusal() {
    let ran = run(&["recheck", TWO_SHOWS, TALK_SHOW, LISTING]);
    assert_eq!(
        (ran.out.as_str(), ran.status),
        ("refused\t10\t0\n", Some(2))
    );
    assert!(ran
        .err
        .starts_with("refused 10 for the tables: the tables cannot be compared"));
    let ran = run(&["recheck", "--show", TWO_SHOWS, EDITED, TALK_SHOW]);
    assert_eq!((ran.out.as_str(), ran.status), ("", Some(2)));
    assert!(ran
        .err
        .starts_with("refused 11 at line 1 of the old listing: "));
    assert!(ran.err.ends_with("\n    1: budget>4294967295\n"));
}

#[test]
fn the_help_names_everything() {
    let ran = run(&["--help"]);
    assert_eq!(ran.status, Some(0));
    for word in ["canon", "recheck", "shows", "Exit status"] {
        assert!(ran.out.contains(word), "{word}");
    }
    for action in ["canon", "recheck", "shows"] {
        assert!(run(&[action, "--help"]).out.contains("--numbered"));
    }
    let ran = run(&["shows", "--help"]);
    for word in [
        "--old",
        "--new",
        "--listings",
        "--jobs",
        "--depth",
        "LISTINGS/NAME.listing",
        "Exit status",
    ] {
        assert!(ran.out.contains(word), "{word}");
    }
    assert_eq!(run(&["shows", "--old", "examples"]).status, Some(2));
    assert_eq!(run(&[]).status, Some(2));
}
