//! The search over the edges: document 01's section "Plans and memo", with
//! request 2026-01's rows.

use std::collections::HashMap;

use super::sets::{highest, lowest, subsets, up_to_lowest, within};
use crate::outcome::answer::{FULL_HOPPER, FULL_SHELF, SPENT_SHIFT};
use crate::outcome::{Edge, Lists, MemoEntry, Plan};
use crate::sheet::{CROSS_PRODUCT, FULL_SELECTIVITY, INNER, LEAF, MAX_ROWS, NONE, Sheet};

/// What the search may use.
#[derive(Clone, Copy)]
pub struct Room {
    pub plans: usize,
    pub memo: usize,
    /// The most visits (document 01: looks).
    pub visits: u32,
}

pub struct Search<'a> {
    sheet: &'a Sheet,
    edges: &'a [Edge],
    room: Room,
    pub plans: Vec<Plan>,
    pub memo: Vec<MemoEntry>,
    pub visits: u32,
    /// Place in the memo of each set that has a plan.
    place: HashMap<u64, usize>,
}

/// An error is the answer that stops the search.
pub type Step = Result<(), u32>;

impl<'a> Search<'a> {
    /// A search that has written the leaves' plans.
    pub fn new(sheet: &'a Sheet, edges: &'a [Edge], room: Room) -> Self {
        let (plans, memo, place) = Default::default();
        let mut search = Search { sheet, edges, room, plans, memo, visits: 0, place };
        for item in sheet.items.iter().filter(|item| item.is_leaf()) {
            let number = search.plans.len() as u32;
            let rows = f64::from(item.rows);
            let cost = rows * f64::from(item.range.count.max(1));
            search.keep(Plan {
                set: 1 << number,
                left: number,
                right: number,
                lead: NONE,
                kind: LEAF,
                rows: rows.to_bits(),
                cost: cost.to_bits(),
            });
        }
        search
    }

    /// The plan kept for a set.
    pub fn kept(&self, set: u64) -> Option<u32> {
        self.place.get(&set).map(|place| self.memo[*place].plan)
    }

    pub fn solve(&mut self) -> Step {
        for leaf in (0..self.plans.len()).rev() {
            let set = 1 << leaf;
            self.emit_csg(set)?;
            self.enumerate_csg_rec(set, up_to_lowest(set))?;
        }
        Ok(())
    }

    fn enumerate_csg_rec(&mut self, set: u64, excluded: u64) -> Step {
        let neighbors = self.neighborhood(set, excluded);
        for subset in subsets(neighbors) {
            self.visit()?;
            if self.kept(set | subset).is_some() {
                self.emit_csg(set | subset)?;
            }
        }
        for subset in subsets(neighbors) {
            self.visit()?;
            self.enumerate_csg_rec(set | subset, excluded | neighbors)?;
        }
        Ok(())
    }

    fn emit_csg(&mut self, left: u64) -> Step {
        let excluded = left | up_to_lowest(left);
        let mut neighbors = self.neighborhood(left, excluded);
        while neighbors != 0 {
            let right = highest(neighbors);
            neighbors &= !right;
            if self.has_edge(left, right) {
                self.emit_csg_cmp(left, right)?;
            }
            self.enumerate_cmp_rec(left, right, excluded)?;
        }
        Ok(())
    }

    fn enumerate_cmp_rec(&mut self, left: u64, right: u64, excluded: u64) -> Step {
        let neighbors = self.neighborhood(right, excluded);
        for subset in subsets(neighbors) {
            self.visit()?;
            let wider = right | subset;
            if self.kept(wider).is_some() && self.has_edge(left, wider) {
                self.emit_csg_cmp(left, wider)?;
            }
        }
        for subset in subsets(neighbors) {
            self.visit()?;
            self.enumerate_cmp_rec(left, right | subset, excluded | neighbors)?;
        }
        Ok(())
    }

    fn emit_csg_cmp(&mut self, left: u64, right: u64) -> Step {
        let Some(left_plan) = self.kept(left) else {
            return Ok(());
        };
        let Some(right_plan) = self.kept(right) else {
            return Ok(());
        };
        let connecting = self.connecting(left, right);
        if connecting.is_empty() {
            return Ok(());
        }
        if self.plans.len() >= self.room.plans {
            return Err(FULL_HOPPER);
        }
        if self.kept(left | right).is_none() && self.memo.len() >= self.room.memo {
            return Err(FULL_SHELF);
        }
        let candidate = self.candidate(left_plan, right_plan, &connecting);
        self.keep(candidate);
        Ok(())
    }

    /// One visit (document 01: look), unless it would pass the limit.
    fn visit(&mut self) -> Step {
        if self.visits == self.room.visits {
            return Err(SPENT_SHIFT);
        }
        self.visits += 1;
        Ok(())
    }

    /// The candidate (document 01: trial) of two plans over their connecting edges.
    fn candidate(&self, left: u32, right: u32, connecting: &[usize]) -> Plan {
        let (a, b) = (self.plans[left as usize], self.plans[right as usize]);
        let (left_rows, right_rows) = (f64::from_bits(a.rows), f64::from_bits(b.rows));
        let pairs = left_rows * right_rows;
        let edges = connecting.iter().map(|number| &self.edges[*number]);
        let kind = if edges.clone().all(|edge| edge.predicate == NONE) {
            CROSS_PRODUCT
        } else {
            self.source_kind(connecting[0])
        };
        let filtered = filtered(self.sheet, edges, pairs);
        let mut rows = rows_by_kind(kind, filtered, left_rows, right_rows);
        if rows > MAX_ROWS {
            rows = MAX_ROWS;
        }
        let cost = pairs + rows + f64::from_bits(a.cost) + f64::from_bits(b.cost);
        Plan {
            set: a.set | b.set,
            left,
            right,
            lead: connecting[0] as u32,
            kind,
            rows: rows.to_bits(),
            cost: cost.to_bits(),
        }
    }

    /// The kind of an edge's source item, 0 for a cross product.
    fn source_kind(&self, edge: usize) -> u32 {
        match self.sheet.items[self.edges[edge].source as usize].kind {
            CROSS_PRODUCT => INNER,
            kind => kind,
        }
    }

    /// Writes a plan; the memo takes it for a new set, or if it is strictly cheaper.
    fn keep(&mut self, plan: Plan) {
        let number = self.plans.len() as u32;
        self.plans.push(plan);
        match self.place.get(&plan.set) {
            None => {
                self.place.insert(plan.set, self.memo.len());
                self.memo.push(MemoEntry { set: plan.set, plan: number });
            }
            Some(place) => {
                let entry = &mut self.memo[*place];
                let kept = self.plans[entry.plan as usize].cost;
                if f64::from_bits(plan.cost) < f64::from_bits(kept) {
                    entry.plan = number;
                }
            }
        }
    }

    /// The lowest leaf of each side that an edge reaches from `set`, none excluded.
    fn neighborhood(&self, set: u64, excluded: u64) -> u64 {
        let mut found = 0;
        for edge in self.edges {
            for (near, far) in [(edge.left, edge.right), (edge.right, edge.left)] {
                if within(near, set) && far & (set | excluded) == 0 {
                    found |= lowest(far);
                }
            }
        }
        found
    }

    fn has_edge(&self, left: u64, right: u64) -> bool {
        self.edges.iter().any(|edge| connects(edge, left, right))
    }

    fn connecting(&self, left: u64, right: u64) -> Vec<usize> {
        (0..self.edges.len()).filter(|i| connects(&self.edges[*i], left, right)).collect()
    }
}

/// What the predicates of connecting edges, in edge order, keep of so many row pairs.
pub fn filtered<'a>(sheet: &Sheet, edges: impl Iterator<Item = &'a Edge>, pairs: f64) -> f64 {
    let predicates = edges.map(|edge| edge.predicate).filter(|predicate| *predicate != NONE);
    predicates.fold(pairs, |rows, predicate| {
        let selectivity = sheet.predicates[predicate as usize].selectivity;
        rows * (f64::from(selectivity) / f64::from(FULL_SELECTIVITY))
    })
}

/// Request 2026-01: rows by kind, from what the predicates leave of the row pairs.
fn rows_by_kind(kind: u32, filtered: f64, left: f64, right: f64) -> f64 {
    let lesser = |x: f64, y: f64| if y < x { y } else { x };
    let greater = |x: f64, y: f64| if y > x { y } else { x };
    match kind {
        1 | 2 => lesser(filtered, left),
        3 => greater(filtered, left),
        4 => greater(filtered, right),
        5 => greater(filtered, greater(left, right)),
        6 | 7 => left,
        _ => filtered,
    }
}

/// The candidate's rows are what an Inner join over the same edges would have.
pub fn has_inner_rows(sheet: &Sheet, lists: &Lists, plan: &Plan) -> bool {
    let rows = |plan: u32| f64::from_bits(lists.plans[plan as usize].rows);
    let (left, right) = lists.sides(plan);
    let connecting = lists.edges.iter().filter(|edge| connects(edge, left, right));
    let inner = filtered(sheet, connecting, rows(plan.left) * rows(plan.right)).min(MAX_ROWS);
    inner.to_bits() == plan.rows
}

/// One side of the edge lies in the one set and its other side in the other.
pub fn connects(edge: &Edge, left: u64, right: u64) -> bool {
    (within(edge.left, left) && within(edge.right, right))
        || (within(edge.left, right) && within(edge.right, left))
}
