//! Generated shows: modules that read logs of one schema, before and after an
//! edit of what they demand.

/// Random numbers from a seed: splitmix64.
struct Rng(u64);

impl Rng {
    /// Below `end`, which is not 0.
    fn below(&mut self, end: usize) -> usize {
        self.0 = self.0.wrapping_add(0x9e37_79b9_7f4a_7c15);
        let mut z = self.0;
        z = (z ^ (z >> 30)).wrapping_mul(0xbf58_476d_1ce4_e5b9);
        z = (z ^ (z >> 27)).wrapping_mul(0x94d0_49bb_1331_11eb);
        ((z ^ (z >> 31)) % end as u64) as usize
    }
}

/// The fields of the log.
const NAMES: [&str; 12] = [
    "actual", "breaks", "cues", "date", "guest", "host", "length", "planned", "rating", "slot",
    "sponsor", "title",
];

/// The entries before the demands, from which a field takes its type.
const TYPES: [&str; 8] = [
    "prim\t0", "prim\t1", "prim\t2", "prim\t5", "prim\t4", "list\t0", "list\t3", "neg\t0",
];

/// What a part of a module demands of a log.
#[derive(Clone)]
struct Demand {
    /// Keys and types.
    fields: Vec<(usize, usize)>,
    optional: Vec<usize>,
    open: bool,
}

impl Demand {
    fn new(rng: &mut Rng) -> Self {
        let keys = (0..NAMES.len()).filter(|_| rng.below(3) == 0);
        let keys: Vec<usize> = keys.collect();
        let mut typed = |key: &usize| (*key, rng.below(TYPES.len()));
        let fields = keys.iter().map(&mut typed).collect();
        Demand {
            fields,
            optional: keys.into_iter().filter(|_| rng.below(3) == 0).collect(),
            open: rng.below(4) > 0,
        }
    }

    /// One edit: a key made optional or required, another type for a field, or
    /// the set opened or closed.
    fn edit(&mut self, rng: &mut Rng) {
        if self.fields.is_empty() || rng.below(4) == 0 {
            self.open = !self.open;
            return;
        }
        let at = rng.below(self.fields.len());
        let field = &mut self.fields[at];
        match self.optional.binary_search(&field.0) {
            _ if rng.below(2) == 0 => field.1 = (field.1 + 1) % TYPES.len(),
            Ok(at) => drop(self.optional.remove(at)),
            Err(at) => self.optional.insert(at, field.0),
        }
    }

    fn line(&self) -> String {
        let fields = self.fields.iter().map(|(key, id)| format!("{key}:{id}"));
        let optional = self.optional.iter().map(usize::to_string);
        let open = u8::from(self.open);
        format!("set\t{}\t-\t{open}\t{}", list(fields), list(optional))
    }
}

fn list(items: impl Iterator<Item = String>) -> String {
    match items.collect::<Vec<_>>().join(",") {
        none if none.is_empty() => "-".to_string(),
        items => items,
    }
}

/// A show's table before and after an edit.
pub struct Show {
    pub name: String,
    pub old: String,
    pub new: String,
}

/// The show of this number. One in five is not edited.
pub fn show(number: usize) -> Show {
    let mut rng = Rng(number as u64);
    let mut demands: Vec<Demand> = (0..4 + rng.below(12))
        .map(|_| Demand::new(&mut rng))
        .collect();
    let old = table(&demands);
    if rng.below(5) > 0 {
        let edited = rng.below(demands.len());
        demands[edited].edit(&mut rng);
    }
    Show {
        name: format!("show-{number:05}"),
        old,
        new: table(&demands),
    }
}

/// Two modules, each with a log that half of the demands are made on; what they
/// give; a function that takes anything; and the logs' types as inputs.
fn table(demands: &[Demand]) -> String {
    let first = TYPES.len();
    let (half, end) = (first + demands.len() / 2, first + demands.len());
    let ids = |from: usize, to: usize| list((from..to).map(|id| id.to_string()));
    let mut entries: Vec<String> = TYPES.iter().map(|line| line.to_string()).collect();
    entries.extend(demands.iter().map(Demand::line));
    entries.extend([
        format!("var\t-\t{}", ids(first, half)),
        format!("var\t-\t{}", ids(half, end)),
        format!("var\t{}\t-", ids(0, 4)),
        format!("list\t{}", end + 2),
        format!("fn\t{end}\t{}", end + 3),
        format!("fn\t{}\t{end}", end + 1),
        "var\t-\t-".to_string(),
        format!("fn\t{0}\t{0}", end + 6),
        format!("union\t{first}\t{half}"),
        format!("named\t11\t{}", end + 8),
        format!("inter\t{}\t{}", end + 9, end + 5),
    ]);
    let roots = [
        (4, '+'),
        (5, '+'),
        (3, '+'),
        (7, '+'),
        (8, '+'),
        (10, '-'),
        (0, '-'),
        (1, '-'),
    ];
    let names = NAMES.iter().map(|name| format!("name\t{name}\n"));
    let entries = entries.iter().map(|entry| format!("{entry}\n"));
    let roots = roots
        .iter()
        .map(|(id, sign)| format!("root\t{}\t{sign}\n", end + id));
    let lines = names.chain(entries).chain(roots);
    format!("budget\t4294967295\n{}", lines.collect::<String>())
}
