//! The lines of a root, worked out node by node.

/// The nodes of a root in the order of the walk. One that is there already
/// keeps its number.
#[derive(Default)]
pub struct Nodes {
    lines: Vec<String>,
}

impl Nodes {
    pub fn node(&mut self, line: String) -> usize {
        let known = self.lines.iter().position(|known| *known == line);
        known.unwrap_or_else(|| {
            self.lines.push(line);
            self.lines.len() - 1
        })
    }

    /// A closed set; its keys are 0 upward.
    pub fn set(&mut self, children: &[usize]) -> usize {
        let fields = children.iter().enumerate();
        let fields: Vec<String> = fields.map(|(key, a)| format!("{key}:{a}")).collect();
        self.node(format!("set>{}>->0>-", fields.join(",")))
    }

    /// The lines of a positive root of one pass and without marks.
    pub fn root(self, id: u32, operations: u32) -> String {
        self.root_of(id, 1, operations)
    }

    /// The same of one or two passes.
    pub fn root_of(self, id: u32, passes: u32, operations: u32) -> String {
        let count = self.lines.len();
        let mut text = format!("root>{id}>+>{passes}>{operations}>0>0>{count}\n");
        for (number, line) in self.lines.iter().enumerate() {
            text.push_str(&format!("{number}>{line}\n"));
        }
        text
    }
}
