//! The build's searches: a text that is missing or found twice is a fault
//! that names the patch.

#[path = "../build/cut.rs"]
mod cut;

use cut::{make, Counters, Patch, Piece, Source};

const TEXT: &str = "use a;\nfn one() {\n    x();\n}\nfn two() {\n    x();\n    y()\n}\n// end\n";

const SOURCE: Source = Source {
    path: "some.rs",
    prelude: "use b;\n",
    pieces: &[Piece {
        from: "fn one",
        to: "// end",
        tail: "// tail\n",
    }],
    dropped: None,
    patches: &[],
    counters: &[],
};

fn made(source: &Source) -> Result<String, String> {
    make(source, TEXT, &mut Vec::new())
}

fn patched(patches: &'static [Patch]) -> Result<String, String> {
    made(&Source { patches, ..SOURCE })
}

#[test]
fn cut_and_patched() {
    let text = patched(&[Patch {
        name: "y becomes z",
        find: "y()",
        put: "z()",
    }]);
    let expected = "use b;\nfn one() {\n    x();\n}\nfn two() {\n    x();\n    z()\n}\n// tail\n";
    assert_eq!(text, Ok(expected.to_string()));
}

#[test]
fn a_search_must_match_once() {
    let missing = patched(&[Patch {
        name: "w",
        find: "w()",
        put: "",
    }]);
    let twice = patched(&[Patch {
        name: "x",
        find: "x()",
        put: "",
    }]);
    let told = "some.rs: patch w: search text not found: `w()`";
    assert_eq!(missing, Err(told.to_string()));
    let told = "some.rs: patch x: search text occurs more than once: `x()`";
    assert_eq!(twice, Err(told.to_string()));
}

#[test]
fn edits_must_not_overlap() {
    let text = patched(&[
        Patch {
            name: "first",
            find: "    y()\n}",
            put: "",
        },
        Patch {
            name: "second",
            find: "y()",
            put: "",
        },
    ]);
    let told = "some.rs: patch second overlaps the edit before it";
    assert_eq!(text, Err(told.to_string()));
}

#[test]
fn dropped_lines_are_counted() {
    let source = |count| Source {
        dropped: Some(("x(", count)),
        ..SOURCE
    };
    assert!(made(&source(2)).is_ok());
    assert!(made(&source(1)).is_err());
}

#[test]
fn counters_add_counts_only() {
    let mut names = vec!["old".to_string()];
    let counters: &'static [Counters] = &[Counters {
        from: "fn two",
        to: "",
        marks: &["@{a}x();", "@[b]@<c>y()@>@]"],
    }];
    let source = Source { counters, ..SOURCE };
    let text = make(&source, TEXT, &mut names).expect("all found");
    assert!(text.contains("fn one() {\n    x();\n}"));
    assert!(text.contains("    crate::probe::hit(1); x();\n"));
    assert!(text.contains("    { crate::probe::hit(2); crate::probe::either(3, y()) }\n"));
    assert_eq!(names, ["old", "a", "b", "c? yes", "c? no"]);
}
