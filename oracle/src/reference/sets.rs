//! Sets of leaves: 64 bits, bit i for leaf i.

pub fn within(set: u64, whole: u64) -> bool {
    set & !whole == 0
}

/// The set of the lowest leaf alone.
pub fn lowest(set: u64) -> u64 {
    1 << set.trailing_zeros()
}

/// The set of the highest leaf alone.
pub fn highest(set: u64) -> u64 {
    1 << (63 - set.leading_zeros())
}

/// The leaves numbered at most as the lowest of the set.
pub fn up_to_lowest(set: u64) -> u64 {
    lowest(set) | (lowest(set) - 1)
}

/// The non-empty subsets in rising order.
pub fn subsets(set: u64) -> impl Iterator<Item = u64> {
    let next = move |subset: u64| Some(subset.wrapping_sub(set) & set).filter(|s| *s != 0);
    std::iter::successors(next(0), move |subset| next(*subset))
}
