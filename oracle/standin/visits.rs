//! Visits (document 01: looks), counted by the counted copy of join_ordering.rs
//! only; beside the unchanged file the count stays 0.

use std::cell::Cell;

thread_local! {
    static COUNT: Cell<u64> = const { Cell::new(0) };
}

/// Counts one visit.
pub fn count() {
    COUNT.set(COUNT.get() + 1);
}

/// The visits since the last reset.
pub fn counted() -> u64 {
    COUNT.get()
}

pub fn reset() {
    COUNT.set(0);
}
