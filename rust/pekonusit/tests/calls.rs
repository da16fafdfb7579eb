//! The calls with the archive: answers, refusals and growth.

use pekonusit::{Calls, Done, Form, Listing, Names, Part, Refusal, Sign, View};

const TALK_SHOW: &[u8] = include_bytes!("../../../examples/talk-show.table");
const TWO_SHOWS: &[u8] = include_bytes!("../../../examples/two-shows.table");
const EDITED: &[u8] = include_bytes!("../../../examples/two-shows-edited.table");
const LISTING: &[u8] = include_bytes!("../../../examples/two-shows.listing");

const ANSWER: &str =
    "answers>1\nroot>5>+>1>9>0>0>4\n0>prim>0\n1>set>0:0,1:0>->1>-\n2>list>0\n3>fn>1>2\n";

/// Two functions of two variables; the second has them the other way round.
const VARIABLES: &str = "budget>99\nvar>->-\nvar>->-\nfn>1>0\nfn>0>2\nroot>3>+\nroot>2>-\n";
const NUMBERED: &str = "answers>2\nnumbered\n\
    root>3>+>2>10>0>0>4\n0>tyvar>0\n1>tyvar>1\n2>fn>1>0\n3>fn>0>2\n\
    root>2>->1>3>0>0>3\n0>tyvar>0\n1>tyvar>1\n2>fn>0>1\n";

const FORMS: [Form; 2] = [Form::Plain, Form::Numbered];

/// A listing without variables, in this form.
fn in_form(form: Form, listing: &str) -> String {
    match form {
        Form::Plain => listing.to_string(),
        Form::Numbered => listing.replacen('\n', "\nnumbered\n", 1),
    }
}

/// A text with `>` for each tab.
fn tabs(text: &str) -> String {
    text.replace('>', "\t")
}

fn refused(number: u32, line: u32, part: Part) -> Refusal {
    Refusal { number, line, part }
}

#[test]
fn the_talk_shows_exchange() {
    let text = Calls::new().canon(TALK_SHOW).unwrap();
    assert_eq!(text, tabs(ANSWER));
    let listing = Listing::read(text.as_bytes()).unwrap();
    let signature = listing.roots[0].signature(&Names::read(TALK_SHOW), View::default());
    assert_eq!(signature, "{ actual : Int, planned : Int, .. } -> [Int]");
}

#[test]
fn variables_are_numbered_in_each_root() {
    let table = tabs(VARIABLES);
    let mut calls = Calls::new();
    let text = calls.canon_numbered(table.as_bytes()).unwrap();
    assert_eq!(text, tabs(NUMBERED));
    let plain = calls.canon(table.as_bytes()).unwrap();
    let turned = NUMBERED.replace("3\n0>tyvar>0\n1>tyvar>1", "3\n0>tyvar>1\n1>tyvar>0");
    assert_eq!(plain, tabs(&turned).replace("numbered\n", ""));
    for text in [text, plain] {
        let listing = Listing::read(text.as_bytes()).unwrap();
        let signature = |i: usize| listing.roots[i].signature(&Names::default(), View::default());
        assert_eq!(
            (&signature(0)[..], &signature(1)[..]),
            ("a -> b -> a", "a -> b")
        );
    }
}

#[test]
fn one_root_in_each_sign() {
    let mut calls = Calls::new();
    let (_, lines) = ANSWER.split_once('\n').unwrap();
    let root = calls.canon_root(TALK_SHOW, 5, Sign::Output);
    assert_eq!(root.unwrap(), tabs(lines));
    let root = calls.canon_root(TALK_SHOW, 2, Sign::Input);
    assert_eq!(
        root.unwrap(),
        tabs("root>2>->1>2>0>0>2\n0>prim>0\n1>list>0\n")
    );
}

#[test]
fn two_shows_rechecked() {
    let mut calls = Calls::new();
    let rechecked = calls.recheck(TWO_SHOWS, EDITED, LISTING).unwrap();
    assert_eq!(rechecked.done, [Done::Redone, Done::Kept]);
    assert_eq!(rechecked.listing, calls.canon(EDITED).unwrap());
    let rechecked = calls.recheck(TWO_SHOWS, TWO_SHOWS, LISTING).unwrap();
    assert_eq!(rechecked.done, [Done::Kept, Done::Kept]);
    assert_eq!(rechecked.listing.as_bytes(), LISTING);
}

#[test]
fn a_numbered_listing_rechecked() {
    let (old, listing) = (tabs(VARIABLES), tabs(NUMBERED));
    let new = old.replace("fn\t0\t2", "fn\t1\t2");
    let mut calls = Calls::new();
    let rechecked = calls.recheck_numbered(old.as_bytes(), new.as_bytes(), listing.as_bytes());
    let rechecked = rechecked.unwrap();
    assert_eq!(rechecked.done, [Done::Redone, Done::Kept]);
    let afresh = calls.canon_numbered(new.as_bytes()).unwrap();
    assert_ne!(afresh, listing);
    assert_eq!(rechecked.listing, afresh);
}

#[test]
fn a_table_without_roots() {
    let table = tabs("budget>1\nprim>0\n");
    let table = table.as_bytes();
    let mut calls = Calls::new();
    for form in FORMS {
        let listing = in_form(form, "answers\t0\n");
        assert_eq!(calls.canon_in(form, table).unwrap(), listing);
        let rechecked = calls.recheck_in(form, table, table, listing.as_bytes());
        let rechecked = rechecked.unwrap();
        assert_eq!((rechecked.done.len(), rechecked.listing), (0, listing));
    }
}

#[test]
fn a_refused_table_has_number_and_line() {
    let cases = [
        ("prim>0\n", 1, 1, "prim>0"),
        ("budget>1\nprim>00\n", 1, 2, "prim>00"),
        ("budget>1\nprim>0\nlist>2\n", 3, 3, "list>2"),
        ("budget>1\nname>b\nname>a\n", 4, 3, "name>a"),
        ("budget>1\nfrozen\n", 5, 2, "frozen"),
    ];
    let mut calls = Calls::new();
    for (text, number, line, pointed) in cases {
        let table = tabs(text);
        let refusal = calls.canon(table.as_bytes()).unwrap_err();
        assert_eq!(refusal, refused(number, line, Part::Table));
        assert_eq!(
            refusal.pointed(table.as_bytes()),
            Some(tabs(pointed).as_bytes())
        );
    }
    let long = format!("budget\t1\nname\t{}\n", "a".repeat(256));
    let refusal = calls.canon(long.as_bytes()).unwrap_err();
    assert_eq!(refusal, refused(2, 2, Part::Table));
    let refusal = calls.canon(&[b'a'; 65_537]).unwrap_err();
    assert_eq!(refusal, refused(2, 0, Part::Table));
    assert_eq!(refusal.pointed(b"a\nb\n"), None);
    let refusal = calls.canon_root(TALK_SHOW, 6, Sign::Output).unwrap_err();
    assert_eq!(refusal, refused(3, 0, Part::Table));
}

#[test]
fn a_refused_recheck_names_the_text_at_fault() {
    let bad = tabs("budget>1\nprim>0\nlist>2\n");
    let mut calls = Calls::new();
    let mut refusal = |old, new, listing| calls.recheck(old, new, listing).unwrap_err();
    let of_old = refusal(bad.as_bytes(), TWO_SHOWS, LISTING);
    assert_eq!(of_old, refused(3, 3, Part::OldTable));
    let of_both = refusal(bad.as_bytes(), bad.as_bytes(), LISTING);
    assert_eq!(of_both, refused(3, 3, Part::OldTable));
    let of_new = refusal(TWO_SHOWS, bad.as_bytes(), LISTING);
    assert_eq!(of_new, refused(3, 3, Part::NewTable));
    assert_eq!(
        refusal(TWO_SHOWS, TALK_SHOW, LISTING),
        refused(10, 0, Part::Tables)
    );
    let cut = &LISTING[..LISTING.len() - 1];
    assert_eq!(
        refusal(TWO_SHOWS, EDITED, cut),
        refused(11, 9, Part::OldListing)
    );
    let long = vec![b'a'; 65_537];
    assert_eq!(
        refusal(TWO_SHOWS, EDITED, &long),
        refused(11, 0, Part::OldListing)
    );
}

/// The form asked for, and that of the listing.
const CROSSED: [(Form, Form); 2] = [(Form::Plain, Form::Numbered), (Form::Numbered, Form::Plain)];

#[test]
fn a_listing_in_the_other_form_is_refused() {
    let empty = tabs("budget>1\nprim>0\n");
    let variables = tabs(VARIABLES);
    let mut calls = Calls::new();
    for (asked, found) in CROSSED {
        for table in [empty.as_bytes(), variables.as_bytes(), TWO_SHOWS] {
            let listing = calls.canon_in(found, table).unwrap();
            let refusal = calls.recheck_in(asked, table, table, listing.as_bytes());
            let expected = refused(11, 2, Part::ListingIn(found));
            assert_eq!(refusal.unwrap_err(), expected);
        }
    }
}

#[test]
fn other_faults_of_a_listing_come_before_its_form() {
    let mut calls = Calls::new();
    let mut refusal = |asked, listing: &str| {
        let answer = calls.recheck_in(asked, TWO_SHOWS, TWO_SHOWS, listing.as_bytes());
        answer.unwrap_err()
    };
    let long = format!("answers\t2\nroot\t{}", "5".repeat(65_536));
    for (asked, found) in CROSSED {
        let first = in_form(found, "answers\t1\nrefused\t5\t+\t6\n");
        assert_eq!(refusal(asked, &first), refused(11, 1, Part::OldListing));
        let long = in_form(found, &long);
        assert_eq!(refusal(asked, &long), refused(11, 0, Part::OldListing));
        // Cut short before its form is told.
        let cut = "answers\t2\n";
        assert_eq!(refusal(asked, cut), refused(11, 2, Part::OldListing));
    }
}

#[test]
fn refusals_have_words() {
    let mut calls = Calls::new();
    let refusal = calls.canon(b"budget\t1\nfrozen\n").unwrap_err();
    assert_eq!(
        refusal.to_string(),
        "refused 5 at line 2 of the table: a frozen entry, which has no type to show"
    );
    let refusal = calls.canon(&[b'a'; 65_537]).unwrap_err();
    assert_eq!(
        refusal.to_string(),
        "refused 2 for the table: the text is longer than 65,536 bytes"
    );
    assert_eq!(
        refused(11, 2, Part::ListingIn(Form::Plain)).to_string(),
        "refused 11 at line 2 of the old listing: it is plain; recheck takes it, and canon_numbered makes a numbered one afresh"
    );
    assert_eq!(
        refused(11, 2, Part::ListingIn(Form::Numbered)).to_string(),
        "refused 11 at line 2 of the old listing: it is numbered; recheck_numbered takes it, and canon makes a plain one afresh"
    );
    let unknown = refused(13, 0, Part::Table).words();
    for number in [1, 2, 3, 4, 5, 10, 11, 12, 20] {
        for line in [0, 7] {
            assert_ne!(refused(number, line, Part::Table).words(), unknown);
        }
    }
}

/// The fields of a set, all of the type 0.
fn fields(count: usize) -> String {
    let fields: Vec<String> = (0..count).map(|i| format!("{i}:0")).collect();
    fields.join(",")
}

/// A table of so many roots, each a set of so many fields, and its listing.
fn wide(count: usize, roots: usize) -> (String, String) {
    let names: String = (0..count).map(|i| format!("name>k{i:03}\n")).collect();
    let set = format!("set>{}>->0>-\n", fields(count));
    let table = format!(
        "budget>9\n{names}prim>0\n{set}{}",
        "root>1>+\n".repeat(roots)
    );
    let root = format!("root>1>+>1>{}>0>0>2\n0>prim>0\n1>{set}", count + 1);
    let listing = format!("answers>{roots}\n{}", root.repeat(roots));
    (tabs(&table), tabs(&listing))
}

#[test]
fn the_output_grows() {
    let mut calls = Calls::new();
    let (table, listing) = wide(400, 64);
    assert!(listing.len() > 2 * 65_536);
    let table = table.as_bytes();
    for form in FORMS {
        let listing = in_form(form, &listing);
        for _ in 0..2 {
            assert_eq!(calls.canon_in(form, table).unwrap(), listing);
            assert_eq!(calls.canon(TALK_SHOW).unwrap(), tabs(ANSWER));
        }
        let refusal = calls.recheck_in(form, table, table, listing.as_bytes());
        assert_eq!(refusal.unwrap_err(), refused(11, 0, Part::OldListing));
    }
}

#[test]
fn recheck_grows_for_its_first_line() {
    // The old listing has at most 65,536 bytes, and with `kept` for each root
    // the answer has more.
    let fits =
        |listing: &str, roots: usize| listing.len() <= 65_536 && listing.len() + 5 * roots > 65_536;
    let sizes = (40..64).flat_map(|roots| (200..400).map(move |count| (count, roots)));
    let mut tables = sizes.map(|(count, roots)| (wide(count, roots), roots));
    let found = tables.find(|((_, listing), roots)| fits(listing, *roots));
    let ((table, listing), roots) = found.unwrap();
    let mut calls = Calls::new();
    let rechecked = calls.recheck(table.as_bytes(), table.as_bytes(), listing.as_bytes());
    let rechecked = rechecked.unwrap();
    assert_eq!(rechecked.done, vec![Done::Kept; roots]);
    assert_eq!(rechecked.listing, listing);
}

/// A listing with one byte replaced or left out, at each place in turn.
fn damaged(listing: &[u8]) -> impl Iterator<Item = Vec<u8>> + '_ {
    (0..listing.len()).flat_map(|at| {
        let mut other = listing.to_vec();
        other[at] = b"019\t\n,:-+a"[at % 10];
        let without = [&listing[..at], &listing[at + 1..]].concat();
        [other, without]
    })
}

fn is_read_where_recheck_takes_it(form: Form) {
    let listing = in_form(form, std::str::from_utf8(LISTING).unwrap());
    let mut calls = Calls::new();
    let mut at_one_line = 0;
    for listing in damaged(listing.as_bytes()) {
        let refused = calls.recheck_in(form, TWO_SHOWS, TWO_SHOWS, &listing).err();
        let Err(fault) = Listing::read(&listing) else {
            continue;
        };
        // recheck also knows the table's roots and names, and can be earlier.
        let refusal = refused.expect("recheck takes no listing that is not in form");
        assert!(
            refusal.number == 11 && refusal.line <= fault.line,
            "{refusal}"
        );
        at_one_line += usize::from(refusal.line == fault.line);
    }
    assert!(at_one_line > LISTING.len(), "{at_one_line}");
}

#[test]
fn a_listing_is_read_where_recheck_takes_it() {
    for form in FORMS {
        is_read_where_recheck_takes_it(form);
    }
}
