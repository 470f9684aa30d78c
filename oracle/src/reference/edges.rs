//! Edge building: document 01's section "Edges".

use super::conflict::{assoc, join_type, l_asscom, r_asscom};
use super::sets::{lowest, within};
use crate::outcome::Edge;
use crate::sheet::{CROSS_PRODUCT, INNER, NONE, Sheet};

/// The leaves on a join's two sides, or two sets of them.
#[derive(Clone, Copy)]
struct Sides {
    left: u64,
    right: u64,
}

impl Sides {
    fn union(self) -> u64 {
        self.left | self.right
    }
}

/// A join that was worked: its type, its leaves and its record sets.
struct Record {
    join_type: u32,
    leaves: Sides,
    record: Sides,
}

struct Builder<'a> {
    sheet: &'a Sheet,
    /// Columns of each leaf so far.
    leaves: Vec<&'a [u32]>,
    edges: Vec<Edge>,
    records: Vec<Record>,
}

pub fn edges(sheet: &Sheet) -> Vec<Edge> {
    let mut builder = Builder { sheet, leaves: Vec::new(), edges: Vec::new(), records: Vec::new() };
    let mut pile = Vec::new();
    for (number, item) in sheet.items.iter().enumerate() {
        if item.is_leaf() {
            pile.push(1 << builder.leaves.len());
            builder.leaves.push(item.range.of(&sheet.columns));
        } else {
            let right = pile.pop().expect("an accepted walk");
            let left = pile.pop().expect("an accepted walk");
            builder.join(number, Sides { left, right });
            pile.push(left | right);
        }
    }
    builder.edges
}

impl Builder<'_> {
    fn join(&mut self, number: usize, leaves: Sides) {
        let item = self.sheet.items[number];
        let join_type = join_type(item.kind);
        let source = number as u32;
        let record = if item.kind == CROSS_PRODUCT {
            let lowest = Sides { left: lowest(leaves.left), right: lowest(leaves.right) };
            self.add_edge(lowest, NONE, source, join_type);
            lowest
        } else {
            let predicates = item.range.first..item.range.first + item.range.count;
            let columns: Vec<u32> =
                predicates.clone().flat_map(|p| self.columns(p)).copied().collect();
            let record = self.sides(&columns, join_type, leaves);
            for predicate in predicates {
                let sides = if item.kind == INNER {
                    self.sides(self.columns(predicate), join_type, leaves)
                } else {
                    record
                };
                self.add_edge(sides, predicate, source, join_type);
            }
            record
        };
        self.records.push(Record { join_type, leaves, record });
    }

    fn columns(&self, predicate: u32) -> &[u32] {
        self.sheet.predicates[predicate as usize].range.of(&self.sheet.columns)
    }

    fn add_edge(&mut self, sides: Sides, predicate: u32, source: u32, join_type: u32) {
        let Sides { left, right } = sides;
        self.edges.push(Edge { left, right, predicate, source, join_type });
    }

    /// The side sets of some columns, widened by the earlier joins inside each side.
    fn sides(&self, columns: &[u32], this: u32, leaves: Sides) -> Sides {
        let mut left = self.side(columns, leaves.left);
        let mut right = self.side(columns, leaves.right);
        for earlier in &self.records {
            let kind = earlier.join_type;
            let connected = |inside, other| self.connected(inside, other, earlier.record.union());
            if within(earlier.leaves.union(), leaves.left) {
                if !assoc(kind, this) && connected(earlier.leaves.right, leaves.right) {
                    left |= earlier.record.left;
                }
                if !l_asscom(kind, this) && connected(earlier.leaves.left, leaves.right) {
                    left |= earlier.record.right;
                }
            } else if within(earlier.leaves.union(), leaves.right) {
                if !assoc(kind, this) && connected(earlier.leaves.left, leaves.left) {
                    right |= earlier.record.right;
                }
                if !r_asscom(kind, this) && connected(earlier.leaves.right, leaves.left) {
                    right |= earlier.record.left;
                }
            }
        }
        Sides { left, right }
    }

    /// Per column the lowest leaf of `side` that has it; the whole side if none does.
    fn side(&self, columns: &[u32], side: u64) -> u64 {
        let mut found = 0;
        for column in columns {
            let has = |leaf: &usize| side >> leaf & 1 == 1 && self.leaves[*leaf].contains(column);
            if let Some(leaf) = (0..self.leaves.len()).find(has) {
                found |= 1 << leaf;
            }
        }
        if found == 0 { side } else { found }
    }

    /// Whether edges join the two sets, those whose union is `passed_over` left out.
    fn connected(&self, first: u64, second: u64, passed_over: u64) -> bool {
        if first == 0 || second == 0 {
            return false;
        }
        let mut classes = Classes((0..self.leaves.len()).map(|leaf| 1 << leaf).collect());
        classes.merge(first);
        classes.merge(second);
        loop {
            let before = classes.0.len();
            for edge in &self.edges {
                let union = edge.left | edge.right;
                if union != passed_over && classes.one(edge.left) && classes.one(edge.right) {
                    classes.merge(union);
                }
            }
            if classes.0.len() == before {
                return classes.one(first | second);
            }
        }
    }
}

/// Disjoint classes of leaves.
struct Classes(Vec<u64>);

impl Classes {
    /// Whether the set lies in one class.
    fn one(&self, set: u64) -> bool {
        self.0.iter().any(|class| within(set, *class))
    }

    /// Makes one class of all that meet the set.
    fn merge(&mut self, set: u64) {
        let met = self.0.iter().filter(|class| **class & set != 0).fold(0, |a, class| a | class);
        self.0.retain(|class| class & set == 0);
        self.0.push(met);
    }
}
