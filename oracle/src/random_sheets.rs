//! Random accepted sheets.

use crate::random::Random;
use crate::sheet::{CROSS_PRODUCT, FULL_SELECTIVITY, Item, Predicate, Range, Sheet};
use crate::walks::{Split, Step, grow_walk};

/// A column number that no leaf has.
const FOREIGN_COLUMN: u32 = 4_000_000_000;

/// Kinds that the joins of one sheet are picked from.
const KIND_MIXES: [&[u32]; 13] = [
    &[0],
    &[0, 0, 0, 8],
    &[0, 3],
    &[0, 5],
    &[0, 1, 2],
    &[0, 3, 4, 5],
    &[3, 4],
    &[5],
    &[1, 2, 6, 7],
    &[1, 2, 3, 4, 5, 6, 7],
    &[0, 1, 2, 3, 4, 5, 6, 7, 8],
    &[0, 0, 1, 3, 5, 8],
    &[8],
];

/// Predicate counts that the joins of one sheet are picked from.
const COUNTS: [u32; 16] = [0, 1, 1, 1, 1, 1, 1, 1, 1, 1, 1, 1, 2, 2, 2, 3];
const DENSE_COUNTS: [u32; 16] = [0, 1, 1, 2, 2, 2, 2, 2, 2, 3, 3, 3, 3, 4, 4, 5];

/// What the sheet's parts have in common.
struct Style {
    kinds: &'static [u32],
    /// Leaves draw their columns from one small pool.
    shared_columns: bool,
    /// Joins may take any range of the predicates.
    wild_ranges: bool,
    /// All rows and selectivities are alike, so that costs tie.
    even: bool,
    /// Most joins have several predicates.
    dense: bool,
}

impl Style {
    fn random(random: &mut Random) -> Self {
        Style {
            kinds: random.pick(&KIND_MIXES),
            shared_columns: random.once_in(4),
            wild_ranges: random.once_in(4),
            even: random.once_in(6),
            dense: random.once_in(3),
        }
    }
}

struct Writer<'a> {
    random: &'a mut Random,
    style: Style,
    sheet: Sheet,
    /// The columns of each leaf.
    leaf_columns: Vec<Vec<u32>>,
}

/// A random accepted sheet of at most `most_leaves` leaves.
pub fn random_sheet(most_leaves: usize, random: &mut Random) -> Sheet {
    let leaves = random.between(1, most_leaves);
    let split = random.pick(&[Split::LeftDeep, Split::RightDeep, Split::Anywhere, Split::Anywhere]);
    let mut walk = Vec::new();
    grow_walk(&mut walk, 0, leaves, split, random);
    let style = Style::random(random);
    let mut writer = Writer { random, style, sheet: Sheet::default(), leaf_columns: vec![] };
    for step in walk {
        match step {
            Step::Leaf => writer.leaf(),
            Step::Join { low, middle, high } => writer.join(low, middle, high),
        }
    }
    if writer.style.wild_ranges {
        writer.scatter_ranges();
    }
    writer.sheet
}

impl Writer<'_> {
    fn leaf(&mut self) {
        let number = self.leaf_columns.len() as u32;
        let columns = if self.style.shared_columns {
            let count = self.random.below(4);
            (0..count).map(|_| self.random.below(8) as u32).collect()
        } else {
            let count = if self.random.once_in(12) { 0 } else { self.random.between(1, 3) };
            (0..count as u32).map(|column| 10 * number + column).collect::<Vec<u32>>()
        };
        let range = self.place(&columns);
        let rows = self.rows();
        self.sheet.items.push(Item::leaf(rows, range));
        self.leaf_columns.push(columns);
    }

    fn join(&mut self, low: usize, middle: usize, high: usize) {
        let kind = self.random.pick(self.style.kinds);
        if kind == CROSS_PRODUCT {
            self.sheet.items.push(Item::join(kind, Range::EMPTY));
            return;
        }
        let counts = if self.style.dense { &DENSE_COUNTS } else { &COUNTS };
        let count = self.random.pick(counts);
        let first = self.sheet.predicates.len() as u32;
        for _ in 0..count {
            let columns = self.predicate_columns(low, middle, high);
            let range = self.place(&columns);
            let selectivity = self.selectivity();
            self.sheet.predicates.push(Predicate { selectivity, range });
        }
        self.sheet.items.push(Item::join(kind, Range { first, count }));
    }

    /// Mostly a column of one leaf on each side; at times none, one that no
    /// leaf has, more, or one repeated.
    fn predicate_columns(&mut self, low: usize, middle: usize, high: usize) -> Vec<u32> {
        let mut columns = Vec::new();
        let form = self.random.below(20);
        if form == 0 {
            return columns;
        }
        let mut sides = vec![(low, middle), (middle, high)];
        match form {
            1 => columns.push(FOREIGN_COLUMN),
            2 => sides.truncate(1),
            3 | 4 => sides.extend([(low, high), (low, high)]),
            5 => sides.extend(sides.clone()),
            _ => {}
        }
        for (from, to) in sides {
            let leaf = self.random.between(from, to - 1);
            if !self.leaf_columns[leaf].is_empty() {
                columns.push(self.random.pick(&self.leaf_columns[leaf]));
            }
        }
        if form == 5 {
            columns.extend(columns.clone());
        }
        columns
    }

    /// A range with these columns: at times one that the table has already.
    fn place(&mut self, columns: &[u32]) -> Range {
        let count = columns.len();
        if count == 0 {
            let first = self.random.between(0, self.sheet.columns.len()) as u32;
            return Range { first, count: 0 };
        }
        let here = self.sheet.columns.windows(count).position(|window| window == columns);
        match here {
            Some(first) if !self.random.once_in(3) => {
                Range { first: first as u32, count: count as u32 }
            }
            _ => self.sheet.add_columns(columns),
        }
    }

    fn rows(&mut self) -> u32 {
        if self.style.even {
            return 4;
        }
        match self.random.below(12) {
            0 => 0,
            1 => 1,
            2 => u32::MAX,
            3 => self.random.word(),
            _ => self.random.between(2, 1000) as u32,
        }
    }

    fn selectivity(&mut self) -> u32 {
        if self.style.even {
            return 16_384;
        }
        match self.random.below(12) {
            0 => 0,
            1 => 1,
            2 => FULL_SELECTIVITY - 1,
            3 | 4 => FULL_SELECTIVITY,
            _ => self.random.below(FULL_SELECTIVITY as usize) as u32,
        }
    }

    /// Gives some joins any range of the predicates, so that ranges overlap
    /// and a predicate stands on several edges.
    fn scatter_ranges(&mut self) {
        let table = self.sheet.predicates.len();
        for item in &mut self.sheet.items {
            let joins = !item.is_leaf() && item.kind != CROSS_PRODUCT;
            if joins && self.random.once_in(2) {
                let first = self.random.between(0, table);
                let count = self.random.between(0, (table - first).min(3));
                item.range = Range { first: first as u32, count: count as u32 };
            }
        }
    }
}
