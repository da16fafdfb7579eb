//! The inputs: damaged tables, changed good tables, lines of random words and
//! random bytes.

use oracle::rng::Rng;
use oracle::table::list_text;
use oracle::{damage, gen};

use crate::input::changes::{self, line_bounds, meaning_byte};

pub const LONGEST: usize = 70_000;

pub struct Kind {
    pub name: &'static str,
    /// Of 100.
    pub share: usize,
    pub make: fn(&mut Rng) -> Vec<u8>,
}

pub const KINDS: [Kind; 4] = [
    Kind {
        name: "damaged tables",
        share: 25,
        make: |rng| damage::table(rng.draw()).1,
    },
    Kind {
        name: "changed good tables",
        share: 40,
        make: changed,
    },
    Kind {
        name: "lines of random words",
        share: 15,
        make: soup,
    },
    Kind {
        name: "random bytes",
        share: 20,
        make: bytes,
    },
];

/// A good table; those that take long come seldom.
fn good(rng: &mut Rng) -> Vec<u8> {
    loop {
        let profile = rng.below(gen::PROFILES.len());
        let slow = matches!(gen::PROFILES[profile].name, "wide" | "long");
        if !slow || rng.chance(8, 100) {
            return gen::table(profile, rng.draw()).to_text();
        }
    }
}

fn changed(rng: &mut Rng) -> Vec<u8> {
    let mut text = good(rng);
    for _ in 0..rng.pick(&[0, 1, 1, 1, 2, 3, 5]) {
        changes::change(rng, &mut text, good, change_budget);
    }
    text
}

fn change_budget(rng: &mut Rng, text: &mut Vec<u8>) {
    let lines = line_bounds(text);
    let line = format!("budget\t{}\n", rng.pick(&[0, 1, 511, 512, 1_023, 1_024]));
    text.splice(lines[0].0..lines[0].1, line.into_bytes());
}

/// Lines that are mostly in the form, with ids that are mostly in range.
fn soup(rng: &mut Rng) -> Vec<u8> {
    let mut text = b"budget\t4294967295\n".to_vec();
    let sections: [&[&str]; 6] = [
        &["name"],
        &[
            "var", "var", "prim", "tyvar", "list", "fn", "set", "neg", "named", "inter", "union",
        ],
        &["pair"],
        &["mark"],
        &["root"],
        &["frozen", "budget", "answers", ""],
    ];
    let n = rng.range(1, 30) as usize;
    for words in &sections[..5] {
        let lines = match words[0] {
            "name" => rng.range(2, 4) as usize,
            "root" => rng.range(1, 4) as usize,
            "pair" | "mark" => rng.below(4),
            _ => n,
        };
        for number in 0..lines {
            let words = match rng.below(300) {
                0 => sections[rng.below(6)],
                _ => words,
            };
            soup_line(rng, word_of(words, number), n, number, &mut text);
        }
    }
    text
}

/// Goes through the words, so that all of them come.
fn word_of<'a>(words: &[&'a str], number: usize) -> &'a str {
    words[(number * 7 + number / words.len()) % words.len()]
}

fn soup_line(rng: &mut Rng, word: &str, n: usize, number: usize, text: &mut Vec<u8>) {
    let line = match word {
        "name" => format!(
            "name\t{number}{}\n",
            rng.pick(&["", "", "\\00", "-", "\\7f"])
        ),
        "var" => format!("var\t{}\t{}\n", ids(rng, n), ids(rng, n)),
        "prim" => format!("prim\t{}\n", rng.below(33)),
        "set" => soup_set(rng, n),
        "named" => format!("named\t{}\t{}\n", rng.below(2), id(rng, n)),
        "fn" | "inter" | "union" | "pair" => {
            format!("{word}\t{}\t{}\n", id(rng, n), id(rng, n))
        }
        "root" => format!("root\t{}\t{}\n", id(rng, n), rng.pick(&["+", "-"])),
        "frozen" | "" => format!("{word}\n"),
        _ => format!("{word}\t{}\n", id(rng, n)),
    };
    text.extend(line.into_bytes());
}

fn id(rng: &mut Rng, n: usize) -> usize {
    match rng.below(400) {
        0 => n,
        _ => rng.below(n),
    }
}

fn ids(rng: &mut Rng, n: usize) -> String {
    let count = rng.pick(&[0, 0, 1, 1, 2, 3, 17]);
    let ids: Vec<u32> = (0..count).map(|_| id(rng, n) as u32).collect();
    list_text(&ids)
}

fn soup_set(rng: &mut Rng, n: usize) -> String {
    let fields = match rng.below(4) {
        0 => "-".to_string(),
        1 => format!("0:{}", id(rng, n)),
        2 => format!("0:{},1:{}", id(rng, n), id(rng, n)),
        _ => format!("1:{}", id(rng, n)),
    };
    let dyn_ty = match rng.below(3) {
        0 => id(rng, n).to_string(),
        _ => "-".to_string(),
    };
    let optional = rng.pick(&["-", "-", "0", "1", "0,1"]);
    format!("set\t{fields}\t{dyn_ty}\t{}\t{optional}\n", rng.below(2))
}

/// Any bytes, or those that mean something in a table, mostly few of them.
fn bytes(rng: &mut Rng) -> Vec<u8> {
    let length = match rng.below(20) {
        0..=9 => rng.below(64),
        10..=15 => rng.below(2_000),
        16..=18 => rng.below(20_000),
        _ => rng.below(LONGEST + 1),
    };
    let budget = rng.chance(50, 100);
    let any = rng.chance(50, 100);
    let mut text: Vec<u8> = (0..length)
        .map(|_| match any {
            true => rng.draw() as u8,
            false => meaning_byte(rng),
        })
        .collect();
    if budget {
        text.splice(0..0, *b"budget\t1\n");
        text.truncate(length);
    }
    text
}
