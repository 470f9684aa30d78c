//! Document 01's sample sheets, with what it says of them.

use crate::cases::DEFAULT_LIMIT;
use crate::outcome::Outcome;
use crate::outcome::answer::{DRY_RUN, POURED, SPENT_SHIFT};
use crate::reference::check::check;
use crate::sheet::{CROSS_PRODUCT, INNER, Range, Sheet, bytes_of};

pub struct Sample {
    pub name: &'static str,
    pub sheet: Sheet,
    pub limit: u32,
    /// Whether the outcome is what document 01 says.
    pub holds: fn(&Outcome) -> bool,
}

/// Sheet A, by words.
fn sheet_a() -> Sheet {
    let words = [
        5, 24, 2, 104, 4, 128, 9, 4, 0, 1, 9, 8, 1, 2, 0, 0, 0, 1, 9, 16, 3, 1, 0, 0, 1, 1, 32768,
        0, 2, 16384, 2, 2, 1, 2, 3, 4,
    ];
    check(&bytes_of(&words)).expect("sheet A is accepted")
}

/// A with rows 4, 4, 4, selectivities 16,384 and one column per leaf.
fn tie() -> Sheet {
    let mut sheet = sheet_a();
    sheet.columns.truncate(3);
    for (first, leaf) in (0..).zip([0, 1, 3]) {
        sheet.items[leaf].rows = 4;
        sheet.items[leaf].range = Range { first, count: 1 };
    }
    for (first, predicate) in (0..).zip(&mut sheet.predicates) {
        predicate.selectivity = 16_384;
        predicate.range = Range { first, count: 2 };
    }
    sheet
}

/// Leaves with a column each, numbered from 1.
fn leaves(count: u32) -> Sheet {
    let mut sheet = Sheet::default();
    for leaf in 1..=count {
        sheet.add_leaf(4 * leaf, &[leaf]);
    }
    sheet
}

fn two_joined(kind: u32, predicates: &[(u32, [u32; 2])]) -> Sheet {
    let mut sheet = leaves(2);
    sheet.add_join(kind, predicates);
    sheet
}

fn second_predicate_without_columns() -> Sheet {
    let mut sheet = sheet_a();
    sheet.predicates[1].range = Range::EMPTY;
    sheet
}

/// (0 LeftOuter 1) Inner 2, both Inner predicates on 1 and 2.
fn unused_predicate() -> Sheet {
    let mut sheet = two_joined(3, &[(32_768, [1, 2])]);
    sheet.add_leaf(16, &[3]);
    sheet.add_join(INNER, &[(16_384, [2, 3]), (8192, [2, 3])]);
    sheet
}

fn edges(outcome: &Outcome) -> Vec<(u64, u64)> {
    outcome.lists.edges.iter().map(|edge| (edge.left, edge.right)).collect()
}

fn tried(outcome: &Outcome) -> Vec<(u64, u64)> {
    outcome.lists.tried().collect()
}

fn costs(outcome: &Outcome) -> Vec<f64> {
    let candidates = outcome.lists.candidates().iter();
    candidates.map(|plan| f64::from_bits(plan.cost)).collect()
}

fn ended(outcome: &Outcome, answer: u32, candidates: usize, visits: u32) -> bool {
    let counts = (outcome.answer, outcome.lists.candidates().len(), outcome.visits);
    counts == (answer, candidates, visits)
}

fn sample(name: &'static str, sheet: Sheet, holds: fn(&Outcome) -> bool) -> Sample {
    Sample { name, sheet, limit: DEFAULT_LIMIT, holds }
}

/// Two joins.
fn three_leaves() -> Vec<Sample> {
    let without_columns = second_predicate_without_columns();
    vec![
        sample("sheet A", sheet_a(), |outcome| {
            ended(outcome, POURED, 4, 8)
                && tried(outcome) == [(2, 4), (1, 2), (1, 6), (3, 4)]
                && costs(outcome) == [192.0, 68.0, 388.0, 404.0]
                && outcome.lists.chosen == 5
        }),
        sample("a tie", tie(), |outcome| {
            costs(outcome)[2..] == [52.0, 52.0] && outcome.lists.chosen == 5
        }),
        sample("A, second predicate without columns", without_columns, |outcome| {
            ended(outcome, POURED, 2, 4) && edges(outcome)[1] == (3, 4)
        }),
        sample("(0 LeftOuter 1) Inner 2, a predicate unused", unused_predicate(), |outcome| {
            let at = tried(outcome).iter().position(|pair| *pair == (1, 6));
            edges(outcome) == [(1, 2), (2, 4), (3, 4)]
                && at.is_some_and(|at| outcome.lists.candidates()[at].lead == 0)
        }),
    ]
}

/// One join or none.
fn few_leaves() -> Vec<Sample> {
    let one_predicate = || two_joined(INNER, &[(32_768, [1, 2])]);
    let spent =
        |outcome: &Outcome| ended(outcome, SPENT_SHIFT, 1, 1) && outcome.lists.memo.len() == 3;
    vec![
        sample("two leaves", one_predicate(), |outcome| ended(outcome, POURED, 1, 2)),
        Sample { limit: 1, ..sample("two leaves, limit 1", one_predicate(), spent) },
        sample("one leaf", leaves(1), |outcome| {
            ended(outcome, POURED, 0, 0) && outcome.lists.chosen == 0
        }),
        sample("no items", Sheet::default(), |outcome| ended(outcome, DRY_RUN, 0, 0)),
        sample("Inner join with no predicates", two_joined(INNER, &[]), |outcome| {
            ended(outcome, DRY_RUN, 0, 0)
        }),
        sample("cross product of two", two_joined(CROSS_PRODUCT, &[]), |outcome| {
            tried(outcome).len() == 1 && outcome.lists.candidates()[0].kind == CROSS_PRODUCT
        }),
    ]
}

pub fn samples() -> Vec<Sample> {
    three_leaves().into_iter().chain(few_leaves()).collect()
}
