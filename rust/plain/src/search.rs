//! Which record of a node a search comes to.

use crate::key::key;

/// Where a search among the records of a node has ended, and how many keys it has compared.
pub struct Search {
    /// The last record whose key is not above the asked one.
    pub reached: Option<usize>,
    pub compared: u32,
}

/// Halves among records with ascending keys until none is left, even after an equal key.
pub fn halve<const SIZE: usize>(records: &[[u8; SIZE]], asked: u64) -> Search {
    let (mut low, mut high) = (0, records.len());
    let mut compared = 0;
    while low < high {
        // Of two in the middle, this is the later.
        let middle = low + (high - low) / 2;
        compared += 1;
        if key(&records[middle]) <= asked {
            low = middle + 1;
        } else {
            high = middle;
        }
    }
    Search { reached: low.checked_sub(1), compared }
}
