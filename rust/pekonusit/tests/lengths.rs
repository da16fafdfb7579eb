//! The stated lengths beside the archive's own and the header's.

use pekonusit::raw::{self, Outcome};
use pekonusit::{lengths, Form};

const TABLE: &[u8] = b"budget\t1\nprim\t0\nroot\t0\t+\n";
const ROOT: &str = "root\t0\t+\t1\t1\t0\t0\t1\n0\tprim\t0\n";
const SHORT: Outcome = Outcome::Refused {
    number: 20,
    line: 0,
};

/// The listing of the table in this form.
fn listing(form: Form) -> String {
    let second = match form {
        Form::Plain => "",
        Form::Numbered => "numbered\n",
    };
    format!("answers\t1\n{second}{ROOT}")
}

/// Scratch of these lengths: the draft, then the slices of numbers.
fn lent<const N: usize>(lengths: &[usize]) -> (Vec<u8>, [Vec<u32>; N]) {
    let words = std::array::from_fn(|i| vec![0; lengths[i + 1]]);
    (vec![0; lengths[0]], words)
}

fn canon(form: Form, lengths: &[usize]) -> Outcome {
    let (mut draft, [mut table, mut arena, mut work]) = lent(lengths);
    let mut out = vec![0; 100];
    raw::canon(
        form, TABLE, &mut out, &mut draft, &mut table, &mut arena, &mut work,
    )
}

fn canon_root(lengths: &[usize]) -> Outcome {
    let (mut draft, [mut table, mut arena, mut work]) = lent(lengths);
    let mut out = vec![0; 100];
    raw::canon_root(
        TABLE, 0, 0, &mut out, &mut draft, &mut table, &mut arena, &mut work,
    )
}

fn recheck(form: Form, lengths: &[usize]) -> Outcome {
    let (mut draft, [mut old, mut table, mut arena, mut work]) = lent(lengths);
    let mut out = vec![0; 100];
    let listing = listing(form);
    raw::recheck(
        form,
        TABLE,
        TABLE,
        listing.as_bytes(),
        &mut out,
        &mut draft,
        &mut old,
        &mut table,
        &mut arena,
        &mut work,
    )
}

/// As stated a call answers, and one element less in any slice is short.
fn held(call: impl Fn(&[usize]) -> Outcome, stated: &[usize], written: usize) {
    assert_eq!(call(stated), Outcome::Written(written as u32));
    for i in 0..stated.len() {
        let mut short = stated.to_vec();
        short[i] -= 1;
        assert_eq!(call(&short), SHORT, "slice {i}");
    }
}

#[test]
fn the_archive_asks_for_what_is_stated() {
    let stated = [
        lengths::DRAFT,
        lengths::TABLE,
        lengths::ARENA,
        lengths::WORK,
    ];
    let rechecked = [
        lengths::DRAFT,
        lengths::TABLE,
        lengths::TABLE,
        lengths::RECHECK_ARENA,
        lengths::WORK,
    ];
    held(canon_root, &stated, ROOT.len());
    for form in [Form::Plain, Form::Numbered] {
        let length = listing(form).len();
        held(|lent| canon(form, lent), &stated, length);
        held(
            |lent| recheck(form, lent),
            &rechecked,
            length + "kept\n".len(),
        );
    }
}

#[test]
fn the_header_has_the_same() {
    let header = include_str!("../../../include/pekonusit.h");
    let constant = |name: &str| -> usize {
        let (_, behind) = header
            .split_once(&format!("#define PEKONUSIT_{name} "))
            .unwrap();
        let number = behind.split_whitespace().next().unwrap();
        number.parse().unwrap()
    };
    assert_eq!(constant("DRAFT"), lengths::DRAFT);
    assert_eq!(constant("TABLE"), lengths::TABLE);
    assert_eq!(constant("ARENA"), lengths::ARENA);
    assert_eq!(constant("RECHECK_ARENA"), lengths::RECHECK_ARENA);
    assert_eq!(constant("WORK"), lengths::WORK);
}
