//! The sheets of the bench (docs/BENCH.md), one file each.

use std::path::Path;

use crate::cases::{LIST_LIMIT, even_lists};
use crate::outcome::answer::POURED;
use crate::random::Random;
use crate::random_sheets::random_sheet;
use crate::reference::call;
use crate::sheet::{INNER, Sheet};

const SEED: u64 = 512;
const RANDOM_SHEETS: usize = 12;

/// Memo entries below which the bench makes a demand.
const MEMO: usize = 512;

/// A left-deep walk of Inner joins, where the join of leaf n has a predicate
/// on n and each leaf of `partners(n)`.
fn inner_joins(leaves: u32, partners: impl Fn(u32) -> Vec<u32>) -> Sheet {
    let mut sheet = Sheet::default();
    for leaf in 0..leaves {
        sheet.add_leaf(100 * (leaf + 1), &[leaf]);
        if leaf > 0 {
            let predicate = |partner| (16_384, [partner, leaf]);
            let predicates: Vec<_> = partners(leaf).into_iter().map(predicate).collect();
            sheet.add_join(INNER, &predicates);
        }
    }
    sheet
}

fn chain(leaves: u32) -> Sheet {
    inner_joins(leaves, |leaf| vec![leaf - 1])
}

fn cycle(leaves: u32) -> Sheet {
    inner_joins(leaves, |leaf| if leaf + 1 == leaves { vec![leaf - 1, 0] } else { vec![leaf - 1] })
}

fn star(leaves: u32) -> Sheet {
    inner_joins(leaves, |_| vec![0])
}

fn clique(leaves: u32) -> Sheet {
    inner_joins(leaves, |leaf| (0..leaf).collect())
}

/// Random sheets of at least 4 leaves that get a plan, of every kind of join.
fn random_sheets() -> Vec<Sheet> {
    let mut random = Random::new(SEED);
    // The limit by which the bench's sheets were first chosen.
    let suits = |sheet: &Sheet| {
        let outcome = call(&sheet.bytes(), &even_lists(256, 16_384, MEMO - 1), LIST_LIMIT);
        sheet.leaves() >= 4 && outcome.answer == POURED
    };
    std::iter::repeat_with(|| random_sheet(12, &mut random))
        .filter(suits)
        .take(RANDOM_SHEETS)
        .collect()
}

/// Writes each sheet to the folder, and prints the names in order.
pub fn write_sheets(folder: &Path) -> std::io::Result<()> {
    let mut sheets = Vec::new();
    let mut shape = |name: &str, most: u32, make: fn(u32) -> Sheet| {
        sheets.extend((4..=most).map(|leaves| (format!("{name}-{leaves}"), make(leaves))));
    };
    shape("chain", 12, chain);
    shape("cycle", 12, cycle);
    shape("star", 9, star);
    shape("clique", 9, clique);
    sheets.extend((1..).zip(random_sheets()).map(|(i, sheet)| (format!("random-{i}"), sheet)));
    std::fs::create_dir_all(folder)?;
    for (name, sheet) in sheets {
        std::fs::write(folder.join(&name), sheet.bytes())?;
        println!("{name} {}", sheet.leaves());
    }
    Ok(())
}
