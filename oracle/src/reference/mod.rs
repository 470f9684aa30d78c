//! A plain reference for the whole call, written out from document 01 and the
//! requests that have landed: sheet bytes, list lengths and visit limit to
//! answer, counts, visits and entries.

pub mod check;
pub mod conflict;
mod edges;
pub mod search;
pub mod sets;

use crate::outcome::answer::{DRY_RUN, POURED, SMALL_CRATE, TANGLE};
use crate::outcome::{Lists, Outcome};
use crate::sheet::{MAX_EDGES, NONE, Sheet};
use search::{Room, Search};

/// Lengths of the lent lists: five of edges, seven of plans, two of the memo.
pub type ListLengths = [u64; 14];

/// A store's length above this counts as this.
const MAX_STORE: u64 = 16_777_216;

fn store(lists: &[u64]) -> usize {
    lists.iter().copied().fold(MAX_STORE, u64::min) as usize
}

pub fn call(bytes: &[u8], lists: &ListLengths, limit: u32) -> Outcome {
    match accept(bytes, lists) {
        Ok(sheet) => {
            let room =
                Room { plans: store(&lists[5..12]), memo: store(&lists[12..]), visits: limit };
            search(&sheet, room)
        }
        Err(answer) => Outcome::refused(answer),
    }
}

/// The sheet, if the call gets none of 1 to 11.
fn accept(bytes: &[u8], lists: &ListLengths) -> Result<Sheet, u32> {
    let sheet = check::check(bytes)?;
    if sheet.edges() > MAX_EDGES {
        return Err(TANGLE);
    }
    let leaves = sheet.leaves();
    let small = store(&lists[..5]) < sheet.edges()
        || store(&lists[5..12]) < leaves
        || store(&lists[12..]) < leaves;
    if small { Err(SMALL_CRATE) } else { Ok(sheet) }
}

fn search(sheet: &Sheet, room: Room) -> Outcome {
    let edges = edges::edges(sheet);
    let mut search = Search::new(sheet, &edges, room);
    let all_leaves = search.plans.iter().fold(0, |set, plan| set | plan.set);
    let stopped = search.solve().err();
    let (answer, chosen) = match (stopped, search.kept(all_leaves)) {
        (Some(answer), _) => (answer, NONE),
        (None, Some(plan)) => (POURED, plan),
        (None, None) => (DRY_RUN, NONE),
    };
    let Search { plans, memo, visits, .. } = search;
    Outcome { answer, visits, lists: Lists { edges, plans, memo, chosen } }
}
