//! Which record of a node a lookup comes to, and how many keys it compares on the way.

use crate::record::{Key, Keyed};

/// Where halving among the records of one node has ended.
pub struct Halving {
    /// The record before the end; none if it ended before the first.
    pub reached: Option<usize>,
    pub compared: u32,
}

/// Halves among records with ascending keys until none is left, even after an equal key.
pub fn halve<'a, K: Keyed>(records: K::Records<'a>, asked: Key<'a, K>) -> Halving {
    let mut left = 0..K::count(records);
    let mut compared = 0;
    while !left.is_empty() {
        // Of two in the middle, this is the later.
        let middle = left.start + left.len() / 2;
        compared += 1;
        if K::key(records, middle) <= asked {
            left.start = middle + 1;
        } else {
            left.end = middle;
        }
    }
    Halving { reached: left.start.checked_sub(1), compared }
}
