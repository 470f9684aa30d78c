//! The sheet check: answers 1 to 9, in document 01's order.

use crate::outcome::answer::*;
use crate::sheet::{
    COLUMN_BYTES, CROSS_PRODUCT, FULL_SELECTIVITY, HEADER_BYTES, ITEM_BYTES, Item, LEAF,
    MAX_COLUMNS, MAX_ITEMS, MAX_LEAVES, MAX_PREDICATES, PREDICATE_BYTES, Predicate, Range, Sheet,
    word_at,
};

/// The sheet, or the number of its refusal.
pub fn check(bytes: &[u8]) -> Result<Sheet, u32> {
    let frame = frame(bytes)?;
    let sheet = Sheet {
        items: frame.items(bytes)?,
        predicates: frame.predicates(bytes)?,
        columns: frame.columns(bytes),
    };
    if sheet.leaves() > MAX_LEAVES {
        return Err(CROWDED);
    }
    walk(&sheet.items)?;
    Ok(sheet)
}

/// Counts and places of the three sections.
struct Frame {
    item_count: u32,
    predicate_count: u32,
    column_count: u32,
    predicate_offset: usize,
    column_offset: usize,
}

fn frame(bytes: &[u8]) -> Result<Frame, u32> {
    if bytes.len() < HEADER_BYTES {
        return Err(TORN);
    }
    let header: Vec<u32> = (0..6).map(|i| word_at(bytes, 4 * i)).collect();
    let (items, predicates, columns) = (header[0], header[2], header[4]);
    if items > MAX_ITEMS || predicates > MAX_PREDICATES || columns > MAX_COLUMNS {
        return Err(OVERFULL);
    }
    let predicate_offset = HEADER_BYTES + ITEM_BYTES * items as usize;
    let column_offset = predicate_offset + PREDICATE_BYTES * predicates as usize;
    let end = column_offset + COLUMN_BYTES * columns as usize;
    let placed = header[1] as usize == HEADER_BYTES
        && header[3] as usize == predicate_offset
        && header[5] as usize == column_offset
        && bytes.len() == end;
    if !placed {
        return Err(MISPLACED);
    }
    Ok(Frame {
        item_count: items,
        predicate_count: predicates,
        column_count: columns,
        predicate_offset,
        column_offset,
    })
}

impl Frame {
    fn items(&self, bytes: &[u8]) -> Result<Vec<Item>, u32> {
        (0..self.item_count as usize)
            .map(|i| self.item(bytes, HEADER_BYTES + ITEM_BYTES * i))
            .collect()
    }

    fn item(&self, bytes: &[u8], place: usize) -> Result<Item, u32> {
        let kind = word_at(bytes, place);
        let second = word_at(bytes, place + 4);
        let range = range_at(bytes, place + 8);
        if kind > LEAF {
            return Err(STRANGER);
        }
        if kind == LEAF {
            within(range, self.column_count)?;
            return Ok(Item::leaf(second, range));
        }
        if second != 0 || (kind == CROSS_PRODUCT && range != Range::EMPTY) {
            return Err(SMUDGE);
        }
        within(range, self.predicate_count)?;
        Ok(Item::join(kind, range))
    }

    fn predicates(&self, bytes: &[u8]) -> Result<Vec<Predicate>, u32> {
        (0..self.predicate_count as usize)
            .map(|i| self.predicate(bytes, self.predicate_offset + PREDICATE_BYTES * i))
            .collect()
    }

    fn predicate(&self, bytes: &[u8], place: usize) -> Result<Predicate, u32> {
        let selectivity = word_at(bytes, place);
        if selectivity > FULL_SELECTIVITY {
            return Err(OVERPOUR);
        }
        let range = range_at(bytes, place + 4);
        within(range, self.column_count)?;
        Ok(Predicate { selectivity, range })
    }

    fn columns(&self, bytes: &[u8]) -> Vec<u32> {
        (0..self.column_count as usize)
            .map(|i| word_at(bytes, self.column_offset + COLUMN_BYTES * i))
            .collect()
    }
}

fn range_at(bytes: &[u8], place: usize) -> Range {
    Range { first: word_at(bytes, place), count: word_at(bytes, place + 4) }
}

fn within(range: Range, table: u32) -> Result<(), u32> {
    if u64::from(range.first) + u64::from(range.count) > u64::from(table) {
        return Err(STRAY);
    }
    Ok(())
}

/// The pile: a leaf adds one, a join makes one of two.
fn walk(items: &[Item]) -> Result<(), u32> {
    let mut pile = 0;
    for item in items {
        if item.is_leaf() {
            pile += 1;
        } else if pile < 2 {
            return Err(BROKEN_ROW);
        } else {
            pile -= 1;
        }
    }
    if !items.is_empty() && pile != 1 {
        return Err(BROKEN_ROW);
    }
    Ok(())
}
