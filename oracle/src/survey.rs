//! What the published Rust does on how many sheets, and the smallest of them.

use std::collections::HashSet;

use crate::outcome::Lists;
use crate::published;
use crate::random::Random;
use crate::random_sheets::random_sheet;
use crate::reference::search::{connects, has_inner_rows};
use crate::reference::sets::{lowest, subsets, within};
use crate::sheet::{CROSS_PRODUCT, INNER, NONE, Sheet};
use crate::walks::{Small, each_small_sheet};

const SEED: u64 = 7;
const RANDOM_SHEETS: usize = 60_000;

/// Leaves, edges and words: a sheet with less of the first is smaller.
type Size = (usize, usize, usize);

struct Trait {
    name: &'static str,
    shows: fn(&Sheet, &Lists) -> bool,
    sheets: usize,
    smallest: Option<(Size, Vec<u32>)>,
}

impl Trait {
    fn new(name: &'static str, shows: fn(&Sheet, &Lists) -> bool) -> Self {
        Trait { name, shows, sheets: 0, smallest: None }
    }

    fn look_for(&mut self, sheet: &Sheet, lists: &Lists) {
        if (self.shows)(sheet, lists) {
            self.sheets += 1;
            let words = sheet.words();
            let size = (lists.leaves(), lists.edges.len(), words.len());
            if self.smallest.as_ref().is_none_or(|(smallest, _)| size < *smallest) {
                self.smallest = Some((size, words));
            }
        }
    }
}

fn pair_tried_twice(_: &Sheet, lists: &Lists) -> bool {
    let mut met = HashSet::new();
    !lists.tried().all(|pair| met.insert(pair))
}

fn pair_tried_both_ways(_: &Sheet, lists: &Lists) -> bool {
    let met: HashSet<(u64, u64)> = lists.tried().collect();
    lists.tried().any(|(left, right)| met.contains(&(right, left)))
}

/// The edges applied at a plan's joins.
fn applied(lists: &Lists, plan: u32) -> usize {
    let plan = &lists.plans[plan as usize];
    if plan.lead == NONE {
        return 0;
    }
    let (left, right) = lists.sides(plan);
    let here = lists.edges.iter().filter(|edge| connects(edge, left, right)).count();
    here + applied(lists, plan.left) + applied(lists, plan.right)
}

fn chosen_plan_leaves_an_edge_out(_: &Sheet, lists: &Lists) -> bool {
    lists.chosen != NONE && applied(lists, lists.chosen) < lists.edges.len()
}

/// The lead edge's left side lies in the right set, under a kind that is not
/// the same both ways round.
fn lead_edge_turned(_: &Sheet, lists: &Lists) -> bool {
    lists.candidates().iter().any(|plan| {
        let sided = !matches!(plan.kind, INNER | 5 | CROSS_PRODUCT);
        sided && !within(lists.edges[plan.lead as usize].left, lists.sides(plan).0)
    })
}

fn connecting_edges_of_several_kinds(sheet: &Sheet, lists: &Lists) -> bool {
    let kind = |source: u32| match sheet.items[source as usize].kind {
        CROSS_PRODUCT => INNER,
        kind => kind,
    };
    lists.candidates().iter().any(|plan| {
        let (left, right) = lists.sides(plan);
        let lead = kind(lists.edges[plan.lead as usize].source);
        let mut connecting = lists.edges.iter().filter(|edge| connects(edge, left, right));
        connecting.any(|edge| kind(edge.source) != lead)
    })
}

fn rows_not_inner(sheet: &Sheet, lists: &Lists) -> bool {
    lists.candidates().iter().any(|plan| !has_inner_rows(sheet, lists, plan))
}

/// A plan that a trial was costed on is no longer the kept one at the end.
fn child_replaced_later(_: &Sheet, lists: &Lists) -> bool {
    let kept: HashSet<u32> = lists.memo.iter().map(|entry| entry.plan).collect();
    let used = lists.candidates().iter().flat_map(|plan| [plan.left, plan.right]);
    used.into_iter().any(|plan| !kept.contains(&plan))
}

/// Not exactly those pairs were tried that split a set into two with plans
/// and a connecting edge, the left one with the lower lowest leaf.
fn other_pairs_than_all_splits(_: &Sheet, lists: &Lists) -> bool {
    let all_leaves = (1 << lists.leaves()) - 1;
    let mut planned: HashSet<u64> = (0..lists.leaves()).map(|leaf| 1 << leaf).collect();
    let mut splits = HashSet::new();
    for set in subsets(all_leaves) {
        for left in subsets(set & !lowest(set)).map(|right| set & !right) {
            let right = set & !left;
            let connected = lists.edges.iter().any(|edge| connects(edge, left, right));
            if connected && planned.contains(&left) && planned.contains(&right) {
                splits.insert((left, right));
                planned.insert(set);
            }
        }
    }
    splits != lists.tried().collect()
}

fn no_plan_though_each_join_has_an_edge(sheet: &Sheet, lists: &Lists) -> bool {
    let mut joins = sheet.items.iter().filter(|item| !item.is_leaf());
    lists.chosen == NONE && joins.all(|join| join.edges() > 0)
}

fn each_sheet(each: &mut dyn FnMut(&Sheet)) {
    for (leaves, most_predicates, step) in [(1, 0, 1), (2, 3, 1), (3, 2, 1), (4, 1, 1), (4, 2, 23)]
    {
        each_small_sheet(&Small { leaves, most_predicates, step }, each);
    }
    let mut random = Random::new(SEED);
    for _ in 0..RANDOM_SHEETS {
        each(&random_sheet(6, &mut random));
    }
}

/// Prints each trait with its sheets and the words of the smallest.
pub fn print_survey() {
    let mut traits = [
        Trait::new("a pair is tried twice", pair_tried_twice),
        Trait::new("a pair is tried both ways round", pair_tried_both_ways),
        Trait::new("the chosen plan leaves an edge out", chosen_plan_leaves_an_edge_out),
        Trait::new("a lead edge is turned", lead_edge_turned),
        Trait::new("connecting edges of several kinds", connecting_edges_of_several_kinds),
        Trait::new("a trial's rows are not an Inner join's", rows_not_inner),
        Trait::new("a trial's child is replaced later", child_replaced_later),
        Trait::new("other pairs than all splits", other_pairs_than_all_splits),
        Trait::new("no plan though each join has an edge", no_plan_though_each_join_has_an_edge),
    ];
    let mut sheets = 0;
    each_sheet(&mut |sheet| {
        sheets += 1;
        let lists = published::run(sheet).lists;
        for sought in &mut traits {
            sought.look_for(sheet, &lists);
        }
    });
    println!("{sheets} sheets");
    for Trait { name, sheets, smallest, .. } in &traits {
        let words = smallest.iter().flat_map(|(_, words)| words);
        let words: Vec<String> = words.map(u32::to_string).collect();
        println!("{name}: {sheets} sheets {}", words.join(" "));
    }
}
