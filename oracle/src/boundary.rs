//! Sheets at the limits, each with the answer that document 01 gives it within
//! ample stores (256 edges, 1,088 plans, 512 memo entries, 1,000,000 visits).

use crate::outcome::answer::*;
use crate::sheet::{
    CROSS_PRODUCT, FULL_SELECTIVITY, INNER, Item, LEAF, NONE, Predicate, Range, Sheet, bytes_of,
};

pub struct Bounded {
    pub name: &'static str,
    pub bytes: Vec<u8>,
    pub answer: u32,
}

fn bounded(name: &'static str, sheet: &Sheet, answer: u32) -> Bounded {
    Bounded { name, bytes: sheet.bytes(), answer }
}

/// A left-deep walk: each join has the kind, and the predicate of `columns`
/// for its number from 1.
fn left_deep(leaves: u32, rows: u32, kind: u32, columns: impl Fn(u32) -> [u32; 2]) -> Sheet {
    let mut sheet = Sheet::default();
    for leaf in 0..leaves {
        sheet.add_leaf(rows, &[leaf]);
        if leaf > 0 && kind == CROSS_PRODUCT {
            sheet.items.push(Item::join(kind, Range::EMPTY));
        } else if leaf > 0 {
            sheet.add_join(kind, &[(FULL_SELECTIVITY, columns(leaf))]);
        }
    }
    sheet
}

/// Leaf n joined with leaf n - 1.
pub fn chain(leaves: u32, rows: u32, kind: u32) -> Sheet {
    left_deep(leaves, rows, kind, |leaf| [leaf - 1, leaf])
}

/// Leaf n joined with leaf 0.
pub fn star(leaves: u32, kind: u32) -> Sheet {
    left_deep(leaves, 1000, kind, |leaf| [0, leaf])
}

/// Leaf 0, and around it `spokes` chains of `length` leaves: each chain is
/// joined with leaf 0 by a predicate on leaf 0 and the whole chain.
fn spoked_star(spokes: u32, length: u32) -> Sheet {
    let column = |leaf| 1000 + leaf;
    let mut sheet = Sheet::default();
    sheet.add_leaf(100, &[column(0)]);
    for spoke in 0..spokes {
        let first = 1 + spoke * length;
        sheet.add_leaf(100, &[column(first)]);
        let mut columns = vec![column(0), column(first)];
        for leaf in first + 1..first + length {
            sheet.add_leaf(100, &[column(leaf)]);
            sheet.add_join(INNER, &[(655, [column(leaf - 1), column(leaf)])]);
            columns.push(column(leaf));
        }
        sheet.add_join(INNER, &[(655, columns)]);
    }
    sheet
}

/// The sheet of samples/wide_star.sheet. Its search ends after 159,076 visits.
pub fn wide_star() -> Sheet {
    spoked_star(7, 4)
}

/// Leaf n joined with leaf 0 and leaf n - 1, by a range of three predicates
/// that overlaps its neighbours' ranges.
pub fn overlapping(leaves: u32) -> Sheet {
    let mut sheet = chain(leaves, 50, INNER);
    let last = sheet.predicates.len() as u32;
    for item in sheet.items.iter_mut().filter(|item| !item.is_leaf()) {
        item.range.count = (last - item.range.first).min(3);
    }
    sheet
}

/// 0 Inner (1 joined with 2 in this kind), the Inner predicate on 0 and 2. The
/// trial of {0,2} and {1} lies against its lead edge: 32 and 8 rows, of whose
/// pairs 16 are left.
pub fn against_lead(kind: u32) -> Sheet {
    let mut sheet = Sheet::default();
    for (leaf, rows) in (0..).zip([4, 8, 16]) {
        sheet.add_leaf(rows, &[leaf]);
    }
    sheet.add_join(kind, &[(4096, [1, 2])]);
    sheet.add_join(INNER, &[(32_768, [0, 2])]);
    sheet
}

/// Two leaves and an Inner join of `edges` predicates; then, with `third`, a
/// third leaf and a join of that kind over the first predicate.
fn many_edges(edges: u32, third: Option<u32>) -> Sheet {
    let mut sheet = Sheet::default();
    sheet.add_leaf(1000, &[0]);
    sheet.add_leaf(1000, &[1]);
    let predicate = Predicate { selectivity: 65_000, range: Range { first: 0, count: 2 } };
    sheet.predicates = vec![predicate; edges as usize];
    sheet.items.push(Item::join(INNER, Range { first: 0, count: edges }));
    if let Some(kind) = third {
        sheet.add_leaf(1000, &[2]);
        let count = u32::from(kind != CROSS_PRODUCT);
        sheet.items.push(Item::join(kind, Range { first: 0, count }));
    }
    sheet
}

/// 127 items, 256 predicates and 4,096 columns: 21,512 bytes.
fn largest() -> Sheet {
    let mut sheet = chain(64, 7, INNER);
    let predicate = sheet.predicates[0];
    sheet.predicates.resize(256, predicate);
    sheet.columns.resize(4096, NONE);
    sheet
}

fn leaves_only(leaves: usize) -> Sheet {
    Sheet { items: vec![Item::leaf(1, Range::EMPTY); leaves], ..Sheet::default() }
}

fn without_predicates(leaves: u32) -> Sheet {
    let mut sheet = chain(leaves, 5, INNER);
    for item in sheet.items.iter_mut().filter(|item| !item.is_leaf()) {
        item.range = Range::EMPTY;
    }
    sheet
}

fn with_selectivity(selectivity: u32) -> Sheet {
    let mut sheet = many_edges(1, None);
    sheet.predicates[0].selectivity = selectivity;
    sheet
}

fn grown(grow: impl Fn(&mut Sheet)) -> Sheet {
    let mut sheet = largest();
    grow(&mut sheet);
    sheet
}

fn sizes() -> Vec<Bounded> {
    let more_items = grown(|sheet| sheet.items.push(Item::leaf(1, Range::EMPTY)));
    let more_predicates = grown(|sheet| sheet.predicates.push(sheet.predicates[0]));
    let more_columns = grown(|sheet| sheet.columns.push(0));
    let mut crowded = chain(64, 5, INNER);
    crowded.items.pop();
    crowded.items.push(Item::leaf(5, Range::EMPTY));
    let mut crowded_overpour = leaves_only(65);
    crowded_overpour.predicates.push(Predicate { selectivity: 65_537, range: Range::EMPTY });
    vec![
        bounded("127 items, 64 leaves, a chain", &chain(64, 5, INNER), FULL_HOPPER),
        bounded("64 leaves, cross products", &star(64, CROSS_PRODUCT), FULL_SHELF),
        bounded("64 leaves, no predicates", &without_predicates(64), DRY_RUN),
        bounded("largest sheet, 21,512 bytes", &largest(), FULL_HOPPER),
        bounded("128 items", &more_items, OVERFULL),
        bounded("257 predicates", &more_predicates, OVERFULL),
        bounded("4,097 columns", &more_columns, OVERFULL),
        bounded("64 leaves and no join", &leaves_only(64), BROKEN_ROW),
        bounded("65 leaves and no join", &leaves_only(65), CROWDED),
        bounded("65 leaves and 62 joins", &crowded, CROWDED),
        bounded("65 leaves and a selectivity of 65,537", &crowded_overpour, OVERPOUR),
        bounded("255 edges", &many_edges(255, None), POURED),
        bounded("256 edges", &many_edges(256, None), POURED),
        bounded("256 edges with a cross product", &many_edges(255, Some(CROSS_PRODUCT)), POURED),
        bounded("257 edges", &many_edges(256, Some(INNER)), TANGLE),
        bounded("257 edges with a cross product", &many_edges(256, Some(CROSS_PRODUCT)), TANGLE),
        bounded("selectivity 0", &with_selectivity(0), POURED),
        bounded("selectivity 65,536", &with_selectivity(FULL_SELECTIVITY), POURED),
        bounded("selectivity 65,537", &with_selectivity(FULL_SELECTIVITY + 1), OVERPOUR),
        bounded("largest selectivity word", &with_selectivity(NONE), OVERPOUR),
        bounded("17 leaves of the most rows", &chain(17, NONE, INNER), POURED),
        bounded("no items", &Sheet::default(), DRY_RUN),
        bounded("one leaf", &leaves_only(1), POURED),
    ]
}

/// Two leaves and an Inner join over one predicate: 25 words. Header 0 to 5,
/// items 6, 10 and 14, predicate 18, columns 21 to 24.
fn two_leaves() -> Vec<u32> {
    let mut sheet = Sheet::default();
    sheet.add_leaf(4, &[1]);
    sheet.add_leaf(8, &[2]);
    sheet.add_join(INNER, &[(32_768, [1, 2])]);
    sheet.words()
}

/// `two_leaves` with some words changed.
fn changed(name: &'static str, changes: &[(usize, u32)], answer: u32) -> Bounded {
    let mut words = two_leaves();
    for (place, word) in changes {
        words[*place] = *word;
    }
    Bounded { name, bytes: bytes_of(&words), answer }
}

/// `two_leaves` with another length.
fn resized(name: &'static str, length: usize, answer: u32) -> Bounded {
    let mut bytes = bytes_of(&two_leaves());
    bytes.resize(length, 0);
    Bounded { name, bytes, answer }
}

fn headers() -> Vec<Bounded> {
    vec![
        changed("two leaves", &[], POURED),
        resized("0 bytes", 0, TORN),
        resized("23 bytes", 23, TORN),
        resized("24 bytes of a longer sheet", 24, MISPLACED),
        resized("one byte short", 99, MISPLACED),
        resized("one byte over", 101, MISPLACED),
        resized("one word short", 96, MISPLACED),
        resized("one word over", 104, MISPLACED),
        Bounded { name: "24 zero bytes", bytes: vec![0; 24], answer: MISPLACED },
        changed("item count 128, offsets as before", &[(0, 128)], OVERFULL),
        changed("predicate count 257", &[(2, 257)], OVERFULL),
        changed("column count 4,097", &[(4, 4097)], OVERFULL),
        changed("largest counts", &[(0, NONE), (2, NONE), (4, NONE)], OVERFULL),
        changed("a count above its limit and a wrong offset", &[(1, 25), (4, 4097)], OVERFULL),
        changed("item offset 0", &[(1, 0)], MISPLACED),
        changed("item offset 28", &[(1, 28)], MISPLACED),
        changed("predicate offset one less", &[(3, 71)], MISPLACED),
        changed("predicate offset in the items", &[(3, 24)], MISPLACED),
        changed("column offset one more", &[(5, 85)], MISPLACED),
        changed("column offset largest", &[(5, NONE)], MISPLACED),
        changed("item count one less", &[(0, 2)], MISPLACED),
        changed("predicate count one more", &[(2, 2)], MISPLACED),
        changed("column count one less", &[(4, 3)], MISPLACED),
        changed("a wrong offset and kind 10", &[(1, 20), (6, 10)], MISPLACED),
    ]
}

fn kinds_and_zeros() -> Vec<Bounded> {
    let mut sheets = vec![
        changed("kind 10", &[(14, 10)], STRANGER),
        changed("largest kind", &[(6, NONE)], STRANGER),
        changed("kind 10, a smudge and a stray", &[(14, 10), (15, 1), (17, 9)], STRANGER),
        changed("cross product with a second word", &[(14, 8), (15, 1), (17, 0)], SMUDGE),
        changed("cross product with a first predicate", &[(14, 8), (16, 1), (17, 0)], SMUDGE),
        changed("cross product with a predicate count", &[(14, 8)], SMUDGE),
        changed("cross product with a stray", &[(14, 8), (17, NONE)], SMUDGE),
        changed("cross product", &[(14, 8), (17, 0)], POURED),
        changed("join with a smudge and a stray", &[(15, 1), (17, 2)], SMUDGE),
    ];
    for kind in INNER..CROSS_PRODUCT {
        sheets.push(changed("a join of each kind", &[(14, kind)], POURED));
        sheets.push(changed("a smudge of each kind", &[(14, kind), (15, NONE)], SMUDGE));
        sheets.push(changed("a stray of each kind", &[(14, kind), (17, 2)], STRAY));
    }
    sheets
}

fn ranges() -> Vec<Bounded> {
    vec![
        changed("leaf columns to the table's end", &[(9, 4)], POURED),
        changed("leaf columns past the end", &[(9, 5)], STRAY),
        changed("no leaf columns at the end", &[(8, 4), (9, 0)], POURED),
        changed("no leaf columns past the end", &[(8, 5), (9, 0)], STRAY),
        changed("first leaf column wraps", &[(8, NONE), (9, 2)], STRAY),
        changed("leaf column count wraps", &[(8, 1), (9, NONE)], STRAY),
        changed("both largest", &[(8, NONE), (9, NONE)], STRAY),
        changed("no predicates at the end", &[(16, 1), (17, 0)], DRY_RUN),
        changed("no predicates past the end", &[(16, 2), (17, 0)], STRAY),
        changed("predicates past the end", &[(16, 1)], STRAY),
        changed("first predicate wraps", &[(16, NONE)], STRAY),
        changed("predicate columns to the end", &[(19, 0), (20, 4)], POURED),
        changed("predicate columns past the end", &[(20, 3)], STRAY),
        changed("no predicate columns at the end", &[(19, 4), (20, 0)], POURED),
        changed("no predicate columns past the end", &[(19, 5), (20, 0)], STRAY),
        changed("first predicate column wraps", &[(19, NONE), (20, 1)], STRAY),
    ]
}

fn orders() -> Vec<Bounded> {
    vec![
        changed("item 0 stray, item 1 stranger", &[(9, 5), (10, 10)], STRAY),
        changed("item 1 stranger, item 2 smudge", &[(10, 10), (15, 1)], STRANGER),
        changed("item 2 smudge, predicate overpour", &[(15, 1), (18, NONE)], SMUDGE),
        changed("item 2 stray, predicate overpour", &[(17, 2), (18, NONE)], STRAY),
        changed("predicate overpour and stray", &[(18, 65_537), (20, 5)], OVERPOUR),
        changed("predicate stray, broken row", &[(14, LEAF), (20, 5)], STRAY),
        changed("broken row", &[(14, LEAF)], BROKEN_ROW),
        changed("overpour, broken row", &[(14, LEAF), (18, 65_537)], OVERPOUR),
    ]
}

/// Walks by kinds: `9` is a leaf, anything else a join without predicates.
fn walks() -> Vec<Bounded> {
    let walk = |name, kinds: &[u32], answer| {
        let items = kinds.iter().map(|kind| Item::join(*kind, Range::EMPTY)).collect();
        bounded(name, &Sheet { items, ..Sheet::default() }, answer)
    };
    vec![
        walk("a join alone", &[0], BROKEN_ROW),
        walk("a leaf and a join", &[9, 0], BROKEN_ROW),
        walk("two leaves", &[9, 9], BROKEN_ROW),
        walk("a join too many", &[9, 9, 0, 0], BROKEN_ROW),
        walk("a leaf left over", &[9, 9, 9, 0], BROKEN_ROW),
        walk("a join too early", &[9, 0, 9, 9, 0], BROKEN_ROW),
        walk("a cross product too early", &[9, 8, 9], BROKEN_ROW),
        walk("right-deep cross products", &[9, 9, 9, 8, 8], POURED),
        walk("joins without predicates", &[9, 9, 0, 9, 5], DRY_RUN),
    ]
}

pub fn boundary_sheets() -> Vec<Bounded> {
    [sizes(), headers(), kinds_and_zeros(), ranges(), orders(), walks()]
        .into_iter()
        .flatten()
        .collect()
}
