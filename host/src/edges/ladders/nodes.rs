//! The listing of a negated ladder, worked out level by level.

use crate::edges::worked::Nodes;

impl Nodes {
    fn of_two(&mut self, kind: &str, a: usize, b: usize) -> usize {
        self.node(format!("{kind}>{a},{b}"))
    }

    fn named(&mut self, name: u32) -> usize {
        let prim = self.node("prim>0".to_string());
        self.node(format!("named>{name}>{prim}"))
    }

    fn negated_named(&mut self, name: u32) -> usize {
        let named = self.named(name);
        self.node(format!("neg>{named}"))
    }

    /// The negation of a ladder over the names 0 and 1.
    pub fn negated(&mut self, levels: u32) -> usize {
        let (a, b) = (self.negated_named(0), self.negated_named(1));
        let lowest = self.of_two("inter", a, b);
        self.negated_levels(lowest, [0, 1], levels)
    }

    /// Of levels above what is negated already; the sides by their names. A
    /// level is the union of two intersections, each of a side and, put last,
    /// the union below. So its negation is the intersection of two unions.
    pub fn negated_levels(&mut self, below: usize, sides: [u32; 2], count: u32) -> usize {
        (0..count).fold(below, |below, _| {
            let [a, b] = sides.map(|name| {
                let side = self.negated_named(name);
                self.of_two("union", side, below)
            });
            self.of_two("inter", a, b)
        })
    }

    /// The ladder itself, as a negation of its negation gives it.
    pub fn upright(&mut self, levels: u32) -> usize {
        let sides = [0, 1].map(|name| self.named(name));
        let lowest = self.of_two("union", sides[0], sides[1]);
        (0..levels).fold(lowest, |below, _| {
            let [a, b] = sides.map(|side| self.of_two("inter", side, below));
            self.of_two("union", a, b)
        })
    }
}

/// The lines of a root that is the negation of a ladder.
pub fn root(id: u32, levels: u32) -> String {
    let mut nodes = Nodes::default();
    nodes.negated(levels);
    nodes.root(id, visits(levels))
}

/// The operations of a negation that finds nothing cached: itself, the lowest
/// union, each named type and its prim; for each level two intersections, the
/// union below twice, and the sides.
pub fn visits(levels: u32) -> u32 {
    1 + 5 + 6 * levels
}
