//! Damaged copies of good sheets.

use crate::random::Random;
use crate::sheet::{FULL_SELECTIVITY, HEADER_BYTES, ITEM_BYTES, NONE, word_at};

/// A copy of a sheet with items that is cut, lengthened, or has one word
/// changed: of the header, an item's kind, or any.
pub fn damaged(bytes: &[u8], random: &mut Random) -> Vec<u8> {
    let mut copy = bytes.to_vec();
    match random.below(8) {
        0 => copy.truncate(random.below(bytes.len())),
        1 => copy.resize(bytes.len() + random.between(1, 8), 0),
        2 => change_word(&mut copy, 4 * random.below(HEADER_BYTES / 4), random),
        3 | 4 => {
            let items = word_at(bytes, 0) as usize;
            change_word(&mut copy, HEADER_BYTES + ITEM_BYTES * random.below(items), random);
        }
        _ => change_word(&mut copy, 4 * random.below(bytes.len() / 4), random),
    }
    copy
}

/// Changes the word at a byte place.
fn change_word(bytes: &mut [u8], place: usize, random: &mut Random) {
    let old = word_at(bytes, place);
    let new = match random.below(8) {
        0 => 0,
        1 => NONE,
        2 => FULL_SELECTIVITY + 1,
        3 => random.word(),
        4 => random.below(12) as u32,
        5 => old.wrapping_sub(1),
        _ => old.wrapping_add(1),
    };
    bytes[place..place + 4].copy_from_slice(&new.to_le_bytes());
}
