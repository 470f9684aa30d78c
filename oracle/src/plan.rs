//! Prints what the published Rust makes of one sheet.

use crate::cases::LIST_LIMIT;
use crate::compare::WIDE;
use crate::outcome::{Lists, Outcome};
use crate::published;
use crate::reference::call;
use crate::reference::check::check;

/// Prints answer and visits of the reference and, where the search ends, the
/// lists of the published Rust.
pub fn print_plan(bytes: &[u8]) {
    // Of the two limits the longer, so that more searches end.
    let outcome = call(bytes, &WIDE.lists, LIST_LIMIT);
    print_answer(&outcome);
    match check(bytes) {
        Ok(sheet) if outcome.ended() => print_lists(&published::run(&sheet).lists),
        _ => println!("not given to the Rust"),
    }
}

fn print_answer(outcome: &Outcome) {
    let Lists { edges, plans, memo, chosen } = &outcome.lists;
    let Outcome { answer, visits, .. } = outcome;
    let (edges, plans, memo) = (edges.len(), plans.len(), memo.len());
    println!(
        "answer {answer} edges {edges} plans {plans} memo {memo} looks {visits} chosen {chosen}"
    );
}

fn print_lists(lists: &Lists) {
    for (number, edge) in lists.edges.iter().enumerate() {
        println!(
            "edge {number} left {:016x} right {:016x} predicate {} source {} type {}",
            edge.left, edge.right, edge.predicate, edge.source, edge.join_type
        );
    }
    for (number, plan) in lists.candidates().iter().enumerate() {
        let (left, right) = lists.sides(plan);
        println!(
            "trial {number} left {left:016x} right {right:016x} plans {} {} lead {} kind {} \
             rows {:016x} cost {:016x}",
            plan.left, plan.right, plan.lead, plan.kind, plan.rows, plan.cost
        );
    }
    for (number, entry) in lists.memo.iter().enumerate() {
        println!("memo {number} set {:016x} plan {}", entry.set, entry.plan);
    }
    println!("chosen {}", lists.chosen);
}
