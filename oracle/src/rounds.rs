//! The published Rust on one sheet many times, for the bench (docs/BENCH.md):
//! the query is made once, and each round builds the hypergraph and searches.

use std::hint::black_box;

use optd_core::analysis::AnalysisContext;
use optd_core::optimize::join_ordering::{Counted, solve_counted};
use optd_core::{build_hypergraph, visits};

use crate::model::MillModel;
use crate::outcome::answer::{DRY_RUN, POURED};
use crate::published::query;
use crate::reference::check::check;
use crate::sheet::{NONE, word_at};

/// Reads the round count, four bytes, and a sheet. Prints the last round's
/// answer number, edges, plans, memo entries, visits (0 where the crate below
/// does not count them) and chosen plan.
pub fn print_rounds(input: &[u8]) {
    let rounds = word_at(input, 0);
    let sheet = check(&input[4..]).expect("an accepted sheet");
    let mut query = query(&sheet);
    let root = query.root().expect("a sheet with items");
    let model = MillModel::new(&sheet, sheet.columns.len());
    let made = query.sizes();
    let mut last = (0, Counted { chosen: None, kept: 0 }, 0);
    for _ in 0..rounds {
        query.truncate(made);
        visits::reset();
        let mut analyses = AnalysisContext::default();
        let graph = build_hypergraph(&query, &mut analyses, root);
        let solved = solve_counted(&mut query, &mut analyses, &graph, &model)
            .expect("the model covers every operator made");
        last = black_box((graph.edges.len(), solved, query.operator_count()));
    }
    let (edges, solved, operators) = last;
    // Operators are the items, then the candidates; plans the leaves, then the candidates.
    let plan = |operator: usize| operator - sheet.items.len() + sheet.leaves();
    let answer = if solved.chosen.is_some() { POURED } else { DRY_RUN };
    let chosen = solved.chosen.map_or(NONE, |operator| plan(operator.index()) as u32);
    let (plans, memo, visits) = (plan(operators), solved.kept, visits::counted());
    println!("{answer} {edges} {plans} {memo} {visits} {chosen}");
}
