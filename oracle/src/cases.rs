//! List lengths and visit limits around what a sheet needs.

use crate::outcome::Outcome;
use crate::random::Random;
use crate::reference::{ListLengths, call};

/// Limit where none is stated (document 01's, changed by request 2026-06).
pub const DEFAULT_LIMIT: u32 = 100_000;

/// The limit that the tried list's program states.
pub const LIST_LIMIT: u32 = 1_000_000;

#[derive(Clone, Copy, Debug, PartialEq, Eq)]
pub struct Case {
    pub lists: ListLengths,
    pub limit: u32,
}

impl Case {
    /// Whether a store has lists of different lengths.
    pub fn is_unequal(&self) -> bool {
        let stores = [&self.lists[..5], &self.lists[5..12], &self.lists[12..]];
        stores.iter().any(|store| store.iter().any(|length| *length != store[0]))
    }
}

/// Lists that are equally long within each store.
pub fn even_lists(edges: usize, plans: usize, memo: usize) -> ListLengths {
    let length = |list| match list {
        0..5 => edges,
        5..12 => plans,
        _ => memo,
    };
    std::array::from_fn(|list| length(list) as u64)
}

/// The stores of document 01's tried list, and the limit that its program states.
pub fn ample() -> Case {
    Case { lists: even_lists(256, 1088, 512), limit: LIST_LIMIT }
}

/// What a sheet needs: entries of each store, its leaves, and its visits.
struct Need {
    edges: usize,
    plans: usize,
    memo: usize,
    leaves: usize,
    visits: u32,
}

impl Need {
    fn of(outcome: &Outcome) -> Self {
        let lists = &outcome.lists;
        Need {
            edges: lists.edges.len(),
            plans: lists.plans.len(),
            memo: lists.memo.len(),
            leaves: lists.leaves(),
            visits: outcome.visits,
        }
    }

    fn exact(&self) -> Case {
        Case { lists: even_lists(self.edges, self.plans, self.memo), limit: self.visits }
    }

    /// Stores exactly full and one short.
    fn stores(&self) -> Vec<Case> {
        let stores =
            |edges, plans, memo| Case { lists: even_lists(edges, plans, memo), limit: self.visits };
        let mut cases = vec![self.exact(), stores(self.edges, self.leaves, self.leaves)];
        if self.edges > 0 {
            cases.push(stores(self.edges - 1, self.plans, self.memo));
        }
        if self.leaves > 0 {
            cases.push(stores(self.edges, self.leaves - 1, self.memo));
            cases.push(stores(self.edges, self.plans, self.leaves - 1));
            cases.push(stores(self.edges, self.plans - 1, self.memo));
            cases.push(stores(self.edges, self.plans, self.memo - 1));
            cases.push(stores(self.edges, self.plans - 1, self.memo - 1));
        }
        cases
    }

    fn limits(&self, random: &mut Random) -> Vec<Case> {
        let limit = |limit| Case { limit, ..self.exact() };
        let mut cases = vec![limit(0), limit(u32::MAX)];
        if self.visits > 0 {
            cases.push(limit(self.visits - 1));
            cases.push(limit(random.below(self.visits as usize) as u32));
        }
        cases
    }

    /// Lists of unequal lengths: all long enough, or one of them one short.
    fn unequal(&self, random: &mut Random) -> Vec<Case> {
        let mut longer = self.exact();
        for length in &mut longer.lists {
            *length += random.below(4) as u64;
        }
        let mut cases = vec![longer];
        for (first, last) in [(0, 4), (5, 11), (12, 13)] {
            let list = random.between(first, last);
            let mut case = longer;
            case.lists[list] = self.exact().lists[list].saturating_sub(1);
            cases.push(case);
        }
        cases
    }

    /// A store and a limit somewhere on the way.
    fn midway(&self, random: &mut Random) -> Case {
        let plans = random.between(self.leaves, self.plans);
        let memo = random.between(self.leaves, self.memo);
        Case {
            lists: even_lists(self.edges, plans, memo),
            limit: random.between(0, self.visits as usize) as u32,
        }
    }
}

/// Cases around what an accepted sheet needs within the case `within`. A
/// refused sheet has that case, and one without stores and visits.
pub fn cases(bytes: &[u8], within: Case, random: &mut Random) -> Vec<Case> {
    let outcome = call(bytes, &within.lists, within.limit);
    let mut cases = vec![within];
    if outcome.accepted() {
        let need = Need::of(&outcome);
        cases.extend(need.stores());
        cases.extend(need.limits(random));
        cases.extend(need.unequal(random));
        cases.push(need.midway(random));
    } else {
        cases.push(Case { lists: [0; 14], limit: 0 });
    }
    cases
}
