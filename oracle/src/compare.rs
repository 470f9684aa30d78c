//! The reference held to the published Rust.

use std::collections::HashMap;

use optd_core::hypergraph;

use crate::boundary::{boundary_sheets, chain, overlapping, star, wide_star};
use crate::cases::{Case, DEFAULT_LIMIT, LIST_LIMIT, ample, cases};
use crate::damage::damaged;
use crate::outcome::answer::{FULL_HOPPER, FULL_SHELF, SMALL_CRATE, SPENT_SHIFT};
use crate::outcome::{MemoEntry, Outcome, Plan};
use crate::published::{self, Published, TYPES};
use crate::random::Random;
use crate::random_sheets::random_sheet;
use crate::reference::check::check;
use crate::reference::{call, conflict};
use crate::samples::samples;
use crate::sheet::{CROSS_PRODUCT, INNER, NONE, Sheet};
use crate::walks::{Small, each_small_sheet};

const SEED: u64 = 429;
const RANDOM_SHEETS: usize = 60_000;
const SAMPLED_SHEETS: usize = 2_000;
const DAMAGED_COPIES: usize = 20_000;

/// Room for every sheet that is compared. The Rust has no limit of visits, so
/// a sheet that passes this one is not given to it.
pub const WIDE: Case = Case { lists: [1 << 24; 14], limit: 100_000 };

/// Counts of one part of the comparison, or of all.
#[derive(Default)]
struct Tally {
    sheets: usize,
    with_candidates: usize,
    /// Sheets that pass the limit of visits.
    passed_over: usize,
    /// Checks other than of a whole sheet.
    others: usize,
    differences: usize,
}

impl Tally {
    /// What does not hold is counted, and named with the sheet's words.
    fn hold(&mut self, holds: bool, what: &str, sheet: &Sheet) {
        if !holds {
            self.differences += 1;
            eprintln!("difference: {what}: {:?}", sheet.words());
        }
    }

    fn hold_other(&mut self, holds: bool, what: &str, sheet: &Sheet) {
        self.others += 1;
        self.hold(holds, what, sheet);
    }

    /// Holds the reference to the Rust where the search ends within `case`,
    /// and gives what the Rust made.
    fn sheet(&mut self, sheet: &Sheet, case: &Case) -> Option<Published> {
        let outcome = call(&sheet.bytes(), &case.lists, case.limit);
        if !outcome.ended() {
            self.passed_over += 1;
            return None;
        }
        self.sheets += 1;
        self.with_candidates += usize::from(!outcome.lists.candidates().is_empty());
        let published = published::run(sheet);
        let same = outcome.lists == published.lists;
        self.hold(same, "edges, plans, memo or chosen plan", sheet);
        if cfg!(counted) {
            self.hold(u64::from(outcome.visits) == published.visits, "visits", sheet);
        }
        Some(published)
    }

    /// Holds calls with other stores and limits to what the Rust made of the
    /// sheet.
    fn other_calls(&mut self, sheet: &Sheet, published: &Published, cases: &[Case]) {
        let bytes = sheet.bytes();
        for case in cases {
            let outcome = call(&bytes, &case.lists, case.limit);
            let holds = follows(&outcome, published, case);
            self.hold_other(holds, "a call with other stores or limit", sheet);
        }
    }

    fn add(&mut self, part: &str, other: Tally) {
        println!(
            "{part}: {} sheets, {} with trials, {} passed over, {} other checks, {} differences",
            other.sheets, other.with_candidates, other.passed_over, other.others, other.differences
        );
        self.sheets += other.sheets;
        self.with_candidates += other.with_candidates;
        self.differences += other.differences;
    }
}

/// Whether lists have room for so many entries.
fn room(lists: &[u64], entries: usize) -> bool {
    lists.iter().all(|length| *length >= entries as u64)
}

/// Whether the outcome of an accepted sheet follows from what the Rust made,
/// and from the stores and the limit.
pub fn follows(outcome: &Outcome, published: &Published, case: &Case) -> bool {
    let leaves = published.lists.leaves();
    let large = room(&case.lists[..5], published.lists.edges.len())
        && room(&case.lists[5..12], leaves)
        && room(&case.lists[12..], leaves);
    if large {
        is_begun(outcome, published, case)
    } else {
        *outcome == Outcome::refused(SMALL_CRATE)
    }
}

/// Whether an outcome is the beginning of what the Rust made, stopped for the
/// reason that it answers.
fn is_begun(outcome: &Outcome, published: &Published, case: &Case) -> bool {
    let (made, whole) = (&outcome.lists, &published.lists);
    let (plans, memo) = (&case.lists[5..12], &case.lists[12..]);
    let next = whole.plans.get(made.plans.len());
    let plans_full = !room(plans, made.plans.len() + 1);
    let memo_full = !room(memo, made.memo.len() + 1);
    let reason = match outcome.answer {
        FULL_HOPPER => next.is_some() && plans_full,
        FULL_SHELF => {
            let new = |next: &Plan| made.memo.iter().all(|entry| entry.set != next.set);
            next.is_some_and(new) && !plans_full && memo_full
        }
        SPENT_SHIFT => outcome.visits == case.limit,
        _ => next.is_none() && made.chosen == whole.chosen,
    };
    reason
        && (outcome.ended() || made.chosen == NONE)
        && (room(plans, made.plans.len()) && room(memo, made.memo.len()))
        && outcome.visits <= case.limit
        && made.edges == whole.edges
        && whole.plans.starts_with(&made.plans)
        && made.memo == memo_of(&made.plans)
        && (!cfg!(counted) || visits_hold(outcome, published))
}

/// Whether the visits are those that the counted copy made until the stop.
fn visits_hold(outcome: &Outcome, published: &Published) -> bool {
    let visits = u64::from(outcome.visits);
    let made = outcome.lists.plans.len();
    let before_next = published.visits_before.get(made).copied();
    match outcome.answer {
        FULL_HOPPER | FULL_SHELF => before_next == Some(visits),
        SPENT_SHIFT => {
            let before_last = made.checked_sub(1).map_or(0, |last| published.visits_before[last]);
            before_last <= visits && visits < before_next.unwrap_or(published.visits)
        }
        _ => visits == published.visits,
    }
}

/// Each set with the earliest of its least costly plans, sets in order of
/// their first plan.
fn memo_of(plans: &[Plan]) -> Vec<MemoEntry> {
    let mut memo: Vec<MemoEntry> = Vec::new();
    let mut places = HashMap::new();
    for (plan, number) in plans.iter().zip(0..) {
        let place = *places.entry(plan.set).or_insert(memo.len());
        if place == memo.len() {
            memo.push(MemoEntry { set: plan.set, plan: number });
        }
        let cost = |number: u32| f64::from_bits(plans[number as usize].cost);
        if cost(number) < cost(memo[place].plan) {
            memo[place].plan = number;
        }
    }
    memo
}

/// The three conflict tables, cell by cell.
fn tables() -> Tally {
    let mut tally = Tally::default();
    for (a, first) in (0..).zip(TYPES) {
        for (b, second) in (0..).zip(TYPES) {
            let cells = [
                conflict::assoc(a, b) == hypergraph::assoc(first, second),
                conflict::l_asscom(a, b) == hypergraph::l_asscom(first, second),
                conflict::r_asscom(a, b) == hypergraph::r_asscom(first, second),
            ];
            for same in cells {
                tally.hold_other(same, &format!("conflict table at {a}, {b}"), &Sheet::default());
            }
        }
    }
    tally
}

/// Document 01's samples: what it says of them, and the Rust.
fn sample_sheets() -> Tally {
    let mut tally = Tally::default();
    for sample in samples() {
        let outcome = call(&sample.sheet.bytes(), &WIDE.lists, sample.limit);
        tally.hold_other((sample.holds)(&outcome), sample.name, &sample.sheet);
        tally.sheet(&sample.sheet, &WIDE);
    }
    tally
}

/// Boundary sheets get the answer written beside them, a refusal also without
/// stores; those that end go to the Rust too.
fn boundary() -> Tally {
    let mut tally = Tally::default();
    for bounded in boundary_sheets() {
        let outcome = call(&bounded.bytes, &ample().lists, ample().limit);
        let without_stores = call(&bounded.bytes, &[0; 14], 0);
        let sheet = check(&bounded.bytes).unwrap_or_default();
        let holds = outcome.answer == bounded.answer
            && (outcome.accepted() || without_stores.answer == bounded.answer);
        tally.hold_other(holds, bounded.name, &sheet);
        if outcome.ended() {
            tally.sheet(&sheet, &ample());
        }
    }
    let crowded = chain(65, 1, INNER);
    std::panic::set_hook(Box::new(|_| {}));
    let panics = std::panic::catch_unwind(|| published::run(&crowded)).is_err();
    let _ = std::panic::take_hook();
    tally.hold_other(panics, "the Rust panics at a 65th leaf", &crowded);
    tally
}

/// Many leaves: chains, stars, overlapping ranges; the wide star, also within
/// the limit where none is stated and within the tried list's.
fn large() -> Tally {
    let mut tally = Tally::default();
    let wide = Case { limit: 10_000_000, ..WIDE };
    for kind in INNER..=CROSS_PRODUCT {
        tally.sheet(&star(12, kind), &wide);
        tally.sheet(&chain(20, NONE, kind), &wide);
    }
    for leaves in [9, 12, 24] {
        tally.sheet(&overlapping(leaves), &wide);
    }
    tally.sheet(&chain(64, 5, INNER), &wide);
    let star = wide_star();
    if let Some(published) = tally.sheet(&star, &wide) {
        let limits = [DEFAULT_LIMIT, LIST_LIMIT].map(|limit| Case { limit, ..ample() });
        tally.other_calls(&star, &published, &limits);
    }
    tally
}

fn small() -> Tally {
    let mut tally = Tally::default();
    for (leaves, most_predicates, step) in [(1, 0, 1), (2, 3, 1), (3, 2, 1), (4, 1, 1), (4, 2, 101)]
    {
        let small = Small { leaves, most_predicates, step };
        each_small_sheet(&small, &mut |sheet| {
            tally.sheet(sheet, &WIDE);
        });
    }
    tally
}

fn random() -> Tally {
    let mut tally = Tally::default();
    let mut random = Random::new(SEED);
    for _ in 0..RANDOM_SHEETS {
        let sheet = random_sheet(12, &mut random);
        tally.sheet(&sheet, &WIDE);
    }
    tally
}

/// Damaged copies that are still accepted: they are read as they were written,
/// and go to the Rust.
fn damaged_copies() -> Tally {
    let mut tally = Tally::default();
    let mut random = Random::new(SEED + 2);
    for _ in 0..DAMAGED_COPIES {
        let bytes = damaged(&random_sheet(8, &mut random).bytes(), &mut random);
        if let Ok(sheet) = check(&bytes) {
            tally.hold_other(sheet.bytes() == bytes, "reading a sheet", &sheet);
            tally.sheet(&sheet, &WIDE);
        }
    }
    tally
}

fn stores_and_limits() -> Tally {
    let mut tally = Tally::default();
    let mut random = Random::new(SEED + 1);
    for _ in 0..SAMPLED_SHEETS {
        let sheet = random_sheet(8, &mut random);
        if let Some(published) = tally.sheet(&sheet, &WIDE) {
            let cases = cases(&sheet.bytes(), WIDE, &mut random);
            tally.other_calls(&sheet, &published, &cases);
        }
    }
    tally
}

/// A part of the comparison by name.
type Part = (&'static str, fn() -> Tally);

const PARTS: [Part; 8] = [
    ("conflict tables", tables),
    ("samples", sample_sheets),
    ("boundary sheets", boundary),
    ("large sheets", large),
    ("all small sheets", small),
    ("random sheets", random),
    ("damaged copies still accepted", damaged_copies),
    ("other stores and limits", stores_and_limits),
];

/// Runs every part, prints the counts and gives the differences.
pub fn compare() -> usize {
    let rust = if cfg!(counted) { "the counted copy, looks too" } else { "the unchanged Rust" };
    println!("reference and {rust}:");
    let mut all = Tally::default();
    for (part, run) in PARTS {
        all.add(part, run());
    }
    println!(
        "sheets {}, with trials {}, differences {}",
        all.sheets, all.with_candidates, all.differences
    );
    all.differences
}
