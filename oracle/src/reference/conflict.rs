//! The conflict tables over join types 0 to 7, and the type of each kind.

/// Document 01: kinds 0 and 8 become type 0; 1, 2, 6, 7 become 1; 3 and 4
/// become 2; 5 becomes 4.
pub fn join_type(kind: u32) -> u32 {
    match kind {
        1 | 2 | 6 | 7 => 1,
        3 | 4 => 2,
        5 => 4,
        _ => 0,
    }
}

pub fn assoc(first: u32, second: u32) -> bool {
    match first {
        0 => matches!(second, 0 | 3),
        3 => matches!(second, 3..=7),
        4..=7 => matches!(second, 4..=7),
        _ => false,
    }
}

pub fn l_asscom(first: u32, second: u32) -> bool {
    match first {
        0..=2 => matches!(second, 0..=3),
        3 | 5 | 7 => true,
        _ => false,
    }
}

pub fn r_asscom(first: u32, second: u32) -> bool {
    match first {
        0 => second == 0,
        6 | 7 => matches!(second, 6 | 7),
        _ => false,
    }
}
