//! The question sheet of form one: its words and its bytes.

/// "No predicate", "no lead edge" and "no chosen plan".
pub const NONE: u32 = u32::MAX;

pub const HEADER_BYTES: usize = 24;
pub const ITEM_BYTES: usize = 16;
pub const PREDICATE_BYTES: usize = 12;
pub const COLUMN_BYTES: usize = 4;

pub const MAX_ITEMS: u32 = 127;
pub const MAX_PREDICATES: u32 = 256;
pub const MAX_COLUMNS: u32 = 4096;
pub const MAX_LEAVES: usize = 64;
pub const MAX_EDGES: usize = 256;

pub const INNER: u32 = 0;
pub const CROSS_PRODUCT: u32 = 8;
pub const LEAF: u32 = 9;

/// The whole of the row pairs kept (document 01: a share of 65,536).
pub const FULL_SELECTIVITY: u32 = 65_536;

/// The greatest row estimate, 2^500.
pub const MAX_ROWS: f64 = f64::from_bits((1023 + 500) << 52);

/// A range of a table: first entry and count.
#[derive(Clone, Copy, Debug, PartialEq, Eq)]
pub struct Range {
    pub first: u32,
    pub count: u32,
}

impl Range {
    pub const EMPTY: Range = Range { first: 0, count: 0 };

    pub fn of<T>(self, table: &[T]) -> &[T] {
        &table[self.first as usize..][..self.count as usize]
    }
}

/// One step of the walk. `rows` is a leaf's and 0 for a join; `range` is a
/// leaf's columns or a join's predicates.
#[derive(Clone, Copy, Debug, PartialEq, Eq)]
pub struct Item {
    pub kind: u32,
    pub rows: u32,
    pub range: Range,
}

impl Item {
    pub fn leaf(rows: u32, range: Range) -> Item {
        Item { kind: LEAF, rows, range }
    }

    pub fn join(kind: u32, range: Range) -> Item {
        Item { kind, rows: 0, range }
    }

    pub fn is_leaf(&self) -> bool {
        self.kind == LEAF
    }

    /// How many edges the item makes.
    pub fn edges(&self) -> usize {
        match self.kind {
            LEAF => 0,
            CROSS_PRODUCT => 1,
            _ => self.range.count as usize,
        }
    }
}

/// A predicate's selectivity (document 01: share) in 65,536ths, and its columns.
#[derive(Clone, Copy, Debug, PartialEq, Eq)]
pub struct Predicate {
    pub selectivity: u32,
    pub range: Range,
}

#[derive(Clone, Debug, Default, PartialEq, Eq)]
pub struct Sheet {
    pub items: Vec<Item>,
    pub predicates: Vec<Predicate>,
    pub columns: Vec<u32>,
}

impl Sheet {
    pub fn leaves(&self) -> usize {
        self.items.iter().filter(|item| item.is_leaf()).count()
    }

    pub fn edges(&self) -> usize {
        self.items.iter().map(Item::edges).sum()
    }

    /// Appends columns to the table.
    pub fn add_columns(&mut self, columns: &[u32]) -> Range {
        let first = self.columns.len() as u32;
        self.columns.extend(columns);
        Range { first, count: columns.len() as u32 }
    }

    /// Appends a leaf, and its columns to the table.
    pub fn add_leaf(&mut self, rows: u32, columns: &[u32]) {
        let range = self.add_columns(columns);
        self.items.push(Item::leaf(rows, range));
    }

    /// Appends a join over predicates that are appended with it, columns too.
    pub fn add_join<C: AsRef<[u32]>>(&mut self, kind: u32, predicates: &[(u32, C)]) {
        let first = self.predicates.len() as u32;
        for (selectivity, columns) in predicates {
            let range = self.add_columns(columns.as_ref());
            self.predicates.push(Predicate { selectivity: *selectivity, range });
        }
        let range = match predicates.len() {
            0 => Range::EMPTY,
            count => Range { first, count: count as u32 },
        };
        self.items.push(Item::join(kind, range));
    }

    pub fn words(&self) -> Vec<u32> {
        let items = self.items.len();
        let predicates = self.predicates.len();
        let predicate_offset = HEADER_BYTES + ITEM_BYTES * items;
        let column_offset = predicate_offset + PREDICATE_BYTES * predicates;
        let mut words = vec![
            items as u32,
            HEADER_BYTES as u32,
            predicates as u32,
            predicate_offset as u32,
            self.columns.len() as u32,
            column_offset as u32,
        ];
        for item in &self.items {
            words.extend([item.kind, item.rows, item.range.first, item.range.count]);
        }
        for predicate in &self.predicates {
            words.extend([predicate.selectivity, predicate.range.first, predicate.range.count]);
        }
        words.extend(&self.columns);
        words
    }

    pub fn bytes(&self) -> Vec<u8> {
        bytes_of(&self.words())
    }
}

pub fn bytes_of(words: &[u32]) -> Vec<u8> {
    words.iter().flat_map(|word| word.to_le_bytes()).collect()
}

/// The word at a byte place.
pub fn word_at(bytes: &[u8], place: usize) -> u32 {
    u32::from_le_bytes(bytes[place..place + 4].try_into().expect("four bytes"))
}
