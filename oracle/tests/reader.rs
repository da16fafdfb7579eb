//! The reader against document 01's refusals, case by case.

use oracle::reader::{read, Refusal};

/// The refusal of a text, as number and line; `>` is a tab.
fn refusal(text: &str) -> Option<(u32, usize)> {
    refusal_of(text.replace('>', "\t").as_bytes())
}

fn refusal_of(text: &[u8]) -> Option<(u32, usize)> {
    let refused = |Refusal { number, line }| (number, line);
    read(text).err().map(refused)
}

#[test]
fn accepted() {
    for text in [
        "budget>0\n",
        "budget>4294967295\n",
        "budget>0\nname>\nname>-\nname>a\n",
        "budget>0\nname>\\00\nname>\\1f\nname>\\5c\nname>\\7f\n",
        "budget>0\ntyvar>4294967295\npair>9>9\npair>9>9\nmark>4294967295\nmark>4294967295\n",
        "budget>0\nprim>31\nroot>0>+\nroot>0>+\nroot>0>-\n",
        "budget>0\nvar>0,0>0\n",
        "budget>0\nname>a\nset>->->1>0\n",
    ] {
        assert_eq!(refusal(text), None, "{text}");
    }
    assert_eq!(refusal_of(b"budget\t0\nname\ta\xff\n"), None);
    assert_eq!(refusal_of(b"budget\t0\nname\t \xc3\xa9~\n"), None);
}

#[test]
fn form() {
    for (text, line) in [
        ("", 1),
        ("\n", 1),
        ("budget>0", 1),
        ("budget>0\nprim>0", 2),
        ("prim>0\n", 1),
        ("budget\n", 1),
        ("budget>\n", 1),
        ("budget>0>0\n", 1),
        ("budget>00\n", 1),
        ("budget>01\n", 1),
        ("budget>-\n", 1),
        ("budget>4294967296\n", 1),
        ("budget>0\nbudget>0\n", 2),
        ("budget>0\n\n", 2),
        ("budget>0\nprim>0\nname>a\n", 3),
        ("budget>0\npair>0>0\nprim>0\n", 3),
        ("budget>0\nmark>0\npair>0>0\n", 3),
        ("budget>0\nprim>0\nroot>0>+\nmark>0\n", 4),
        ("budget>0\nname\n", 2),
        ("budget>0\nname>a>b\n", 2),
        ("budget>0\nname>\\\n", 2),
        ("budget>0\nname>\\5C\n", 2),
        ("budget>0\nname>\\61\n", 2),
        ("budget>0\nname>\\20\n", 2),
        ("budget>0\nname>\\80\n", 2),
        ("budget>0\nprim>32\n", 2),
        ("budget>0\nprim>-\n", 2),
        ("budget>0\nvar>-\n", 2),
        ("budget>0\nvar>>-\n", 2),
        ("budget>0\nvar>0,>-\n", 2),
        ("budget>0\nvar>,0>-\n", 2),
        ("budget>0\nvar>0,,0>-\n", 2),
        ("budget>0\nvar>-,0>-\n", 2),
        ("budget>0\nlist>-\n", 2),
        ("budget>0\nset>->->2>-\n", 2),
        ("budget>0\nset>->->00>-\n", 2),
        ("budget>0\nset>0:0:0>->0>-\n", 2),
        ("budget>0\nset>0>->0>-\n", 2),
        ("budget>0\nset>:0>->0>-\n", 2),
        ("budget>0\nset>->>0>-\n", 2),
        ("budget>0\nset>->->0\n", 2),
        ("budget>0\nfrozen>0\n", 2),
        ("budget>0\nfrozen>\n", 2),
        ("budget>0\nvars>->-\n", 2),
        ("budget>0\npair>0\n", 2),
        ("budget>0\nmark>x\n", 2),
        ("budget>0\nprim>0\nroot>0>*\n", 3),
        ("budget>0\nprim>0\nroot>0\n", 3),
        ("budget>0\r\n", 1),
        (" budget>0\n", 1),
    ] {
        assert_eq!(refusal(text), Some((1, line)), "{text:?}");
    }
    assert_eq!(refusal_of(b"budget\t0\nname\ta\x7f\n"), Some((1, 2)));
    assert_eq!(refusal_of(b"budget\t0\nname\t\x00\n"), Some((1, 2)));
}

#[test]
fn ceilings() {
    let names = |count: u32| -> String { (0..count).map(|i| format!("name>{i:04}\n")).collect() };
    let many = |line: &str, count: usize| format!("budget>0\n{}", line.repeat(count));
    assert_eq!(refusal(&format!("budget>0\n{}", names(1_024))), None);
    let text = format!("budget>0\n{}", names(1_025));
    assert_eq!(refusal(&text), Some((2, 1_026)));
    assert_eq!(refusal(&many("prim>0\n", 2_048)), None);
    assert_eq!(refusal(&many("prim>0\n", 2_049)), Some((2, 2_050)));
    assert_eq!(refusal(&many("pair>0>0\n", 2_048)), None);
    assert_eq!(refusal(&many("pair>0>0\n", 2_049)), Some((2, 2_050)));
    assert_eq!(refusal(&many("mark>0\n", 512)), None);
    assert_eq!(refusal(&many("mark>0\n", 513)), Some((2, 514)));
    let roots = |count: usize| format!("budget>0\nprim>0\n{}", "root>0>+\n".repeat(count));
    assert_eq!(refusal(&roots(64)), None);
    assert_eq!(refusal(&roots(65)), Some((2, 67)));
    let name = |length: usize| format!("budget>0\nname>{}\n", "\\00".repeat(length));
    assert_eq!(refusal(&name(255)), None);
    assert_eq!(refusal(&name(256)), Some((2, 2)));
}

#[test]
fn ids_and_keys() {
    // 8,190 ids, and then kinds of entries that cost 0, 1, 2 and 3.
    let ids = vec!["0"; 8_190].join(",");
    let start = format!("budget>0\nname>a\nvar>{ids}>-\n");
    for (entry, cost) in [
        ("prim>0", 0),
        ("tyvar>0", 0),
        ("var>->-", 0),
        ("list>0", 1),
        ("neg>0", 1),
        ("named>0>0", 1),
        ("set>->->0>0", 1),
        ("set>->0>0>-", 1),
        ("fn>0>0", 2),
        ("inter>0>0", 2),
        ("union>0>0", 2),
        ("var>0>0", 2),
        ("set>0:0>->0>-", 2),
        ("set>0:0>->0>0", 3),
    ] {
        let text = format!("{start}{entry}\nlist>0\nlist>0\nlist>0\n");
        // Room for 2: the first line beyond it is told.
        let line = if cost > 2 { 4 } else { 7 - cost };
        assert_eq!(refusal(&text), Some((2, line)), "{entry}");
    }
}

#[test]
fn text_length() {
    let start = "budget\t0\n".to_string();
    let line = format!("name\t{}\n", "x".repeat(65_536 - start.len() - 6));
    let text = start + &line;
    assert_eq!(text.len(), 65_536);
    // The name is too long, but the text is not.
    assert_eq!(refusal_of(text.as_bytes()), Some((2, 2)));
    assert_eq!(refusal_of((text + "\n").as_bytes()), Some((2, 0)));
}

#[test]
fn order_of_names_and_keys() {
    for (text, line) in [
        ("budget>0\nname>b\nname>a\n", 3),
        ("budget>0\nname>a\nname>a\n", 3),
        ("budget>0\nname>a\nname>\n", 3),
        ("budget>0\nname>a\nname>\\00\n", 3),
        ("budget>0\nset>1:0,0:0>->0>-\n", 2),
        ("budget>0\nset>1:0,1:0>->0>-\n", 2),
        ("budget>0\nset>->->0>1,0\n", 2),
        ("budget>0\nset>->->0>1,1\n", 2),
    ] {
        assert_eq!(refusal(text), Some((4, line)), "{text:?}");
    }
    // By unescaped bytes: 0x00 before a, and 0x7f after it.
    assert_eq!(refusal("budget>0\nname>\\00\nname>a\nname>\\7f\n"), None);
}

#[test]
fn ranges() {
    for (text, line) in [
        ("budget>0\nvar>1>-\n", 2),
        ("budget>0\nvar>->1\n", 2),
        ("budget>0\nlist>1\n", 2),
        ("budget>0\nfn>1>0\n", 2),
        ("budget>0\nfn>0>1\n", 2),
        ("budget>0\nneg>1\n", 2),
        ("budget>0\ninter>0>1\n", 2),
        ("budget>0\nunion>1>0\n", 2),
        ("budget>0\nname>a\nnamed>1>0\n", 3),
        ("budget>0\nname>a\nnamed>0>1\n", 3),
        ("budget>0\nname>a\nset>1:0>->0>-\n", 3),
        ("budget>0\nname>a\nset>0:1>->0>-\n", 3),
        ("budget>0\nname>a\nset>->1>0>-\n", 3),
        ("budget>0\nname>a\nset>->->0>1\n", 3),
        ("budget>0\nroot>0>+\n", 2),
        ("budget>0\nprim>0\nroot>1>+\n", 3),
    ] {
        assert_eq!(refusal(text), Some((3, line)), "{text:?}");
    }
}

/// On one line 1 before 2 before 4 before 5; then the earliest line; 3 only
/// when no line has any of the others.
#[test]
fn which_comes_first() {
    let prims = |count: usize| format!("budget>0\n{}", "prim>0\n".repeat(count));
    for (text, expected) in [
        ("budget>0\nfrozen\n".to_string(), (5, 2)),
        ("budget>0\nlist>9\nfrozen\n".to_string(), (5, 3)),
        ("budget>0\nfrozen\nname>a\n".to_string(), (5, 2)),
        ("budget>0\nlist>9\nset>1:0,0:0>->0>-\n".to_string(), (4, 3)),
        ("budget>0\nlist>9\nprim>32\n".to_string(), (1, 3)),
        ("budget>0\nlist>9\nlist>9\n".to_string(), (3, 2)),
        ("budget>0\nset>1:0,0:0>->2>-\n".to_string(), (1, 2)),
        (format!("{}frozen\n", prims(2_047)), (5, 2_049)),
        (format!("{}frozen\n", prims(2_048)), (2, 2_050)),
        (format!("{}frozen>0\n", prims(2_048)), (1, 2_050)),
        (format!("{}set>1:0,0:0>->0>-\n", prims(2_048)), (2, 2_050)),
        (format!("{}list>9999\n", prims(2_047)), (3, 2_049)),
    ] {
        let end = text.lines().last().unwrap_or("").to_string();
        assert_eq!(refusal(&text), Some(expected), "{end}");
    }
    let names: String = (0..1_024).map(|i| format!("name>{i:04}\n")).collect();
    let text = format!("budget>0\n{names}name>0000\n");
    assert_eq!(refusal(&text), Some((2, 1_026)));
}
