//! What a call answers and writes, in document 01's fields.

use crate::sheet::{LEAF, NONE};

/// Answer numbers by document 01's words.
pub mod answer {
    pub const POURED: u32 = 0;
    pub const TORN: u32 = 1;
    pub const OVERFULL: u32 = 2;
    pub const MISPLACED: u32 = 3;
    pub const STRANGER: u32 = 4;
    pub const SMUDGE: u32 = 5;
    pub const STRAY: u32 = 6;
    pub const OVERPOUR: u32 = 7;
    pub const CROWDED: u32 = 8;
    pub const BROKEN_ROW: u32 = 9;
    pub const TANGLE: u32 = 10;
    pub const SMALL_CRATE: u32 = 11;
    pub const FULL_HOPPER: u32 = 12;
    pub const FULL_SHELF: u32 = 13;
    pub const SPENT_SHIFT: u32 = 14;
    pub const DRY_RUN: u32 = 15;
    pub const COUNT: usize = 16;
}

#[derive(Clone, Copy, Debug, PartialEq, Eq)]
pub struct Edge {
    pub left: u64,
    pub right: u64,
    pub predicate: u32,
    pub source: u32,
    pub join_type: u32,
}

/// A leaf's plan or a candidate (document 01: trial). Rows and cost are kept
/// as the bits of an f64, so that equal means equal to the last bit.
#[derive(Clone, Copy, Debug, PartialEq, Eq)]
pub struct Plan {
    pub set: u64,
    pub left: u32,
    pub right: u32,
    pub lead: u32,
    pub kind: u32,
    pub rows: u64,
    pub cost: u64,
}

#[derive(Clone, Copy, Debug, PartialEq, Eq)]
pub struct MemoEntry {
    pub set: u64,
    pub plan: u32,
}

/// The lists written and the chosen plan.
#[derive(Clone, Debug, PartialEq, Eq)]
pub struct Lists {
    pub edges: Vec<Edge>,
    pub plans: Vec<Plan>,
    pub memo: Vec<MemoEntry>,
    pub chosen: u32,
}

impl Lists {
    pub fn leaves(&self) -> usize {
        self.plans.iter().filter(|plan| plan.kind == LEAF).count()
    }

    pub fn candidates(&self) -> &[Plan] {
        &self.plans[self.leaves()..]
    }

    /// The left and right set of a plan.
    pub fn sides(&self, plan: &Plan) -> (u64, u64) {
        (self.plans[plan.left as usize].set, self.plans[plan.right as usize].set)
    }

    /// The left and right set of each candidate.
    pub fn tried(&self) -> impl Iterator<Item = (u64, u64)> {
        self.candidates().iter().map(|plan| self.sides(plan))
    }

    pub const EMPTY: Lists =
        Lists { edges: Vec::new(), plans: Vec::new(), memo: Vec::new(), chosen: NONE };
}

#[derive(Clone, Debug, PartialEq, Eq)]
pub struct Outcome {
    pub answer: u32,
    /// Document 01: looks.
    pub visits: u32,
    pub lists: Lists,
}

impl Outcome {
    pub fn refused(answer: u32) -> Outcome {
        Outcome { answer, visits: 0, lists: Lists::EMPTY }
    }

    /// None of the answers that write nothing.
    pub fn accepted(&self) -> bool {
        !matches!(self.answer, answer::TORN..=answer::SMALL_CRATE)
    }

    /// The search went to its end.
    pub fn ended(&self) -> bool {
        matches!(self.answer, answer::POURED | answer::DRY_RUN)
    }
}
